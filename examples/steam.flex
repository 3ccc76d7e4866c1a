pipeflex 1
# A 6 inch steam line between two anchors, 48 m, with an expansion loop in its middle: 4 m out, 3 m wide.
# Case cold is the insulated line's weight and the pressure, case hot the same 180 K above the day it was built.
material A106B 203400 300 11500 7850
section NPS6-40 A106B 168300 7110 1500 160000
node W 0 0 0
node S1 6000000 0 0
node S2 12000000 0 0
node S3 18000000 0 0
node L1 22271000 0 0
node L2 22500000 229000 0
node L3 22500000 3771000 0
node L4 22729000 4000000 0
node S4 24000000 4000000 0
node L5 25271000 4000000 0
node L6 25500000 3771000 0
node L7 25500000 229000 0
node L8 25729000 0 0
node S5 30000000 0 0
node S6 36000000 0 0
node S7 42000000 0 0
node E 48000000 0 0
straight run1 W S1 NPS6-40
straight run2 S1 S2 NPS6-40
straight run3 S2 S3 NPS6-40
straight run4 S3 L1 NPS6-40
bend elbow1 L1 L2 NPS6-40 229000 90000 22500000 0 0
straight leg1 L2 L3 NPS6-40
bend elbow2 L3 L4 NPS6-40 229000 90000 22500000 4000000 0
straight top1 L4 S4 NPS6-40
straight top2 S4 L5 NPS6-40
bend elbow3 L5 L6 NPS6-40 229000 90000 25500000 4000000 0
straight leg2 L6 L7 NPS6-40
bend elbow4 L7 L8 NPS6-40 229000 90000 25500000 0 0
straight run5 L8 S5 NPS6-40
straight run6 S5 S6 NPS6-40
straight run7 S6 S7 NPS6-40
straight run8 S7 E NPS6-40
anchor west W - -
anchor east E - -
oneway rest1 S1 0 0 -1 0 -
oneway rest2 S2 0 0 -1 0 -
oneway rest3 S3 0 0 -1 0 -
oneway rest4 S4 0 0 -1 0 -
oneway rest5 S5 0 0 -1 0 -
oneway rest6 S6 0 0 -1 0 -
oneway rest7 S7 0 0 -1 0 -
gap guide1 S2 0 1 0 3000 -
gap guide2 S6 0 1 0 3000 -
case cold 0 0 -1000 0 0 1500000
case hot 0 0 -1000 0 180000 1500000
check weight sustained cold 137900
check range expansion hot cold 137900 130000 7000 1000 weight
