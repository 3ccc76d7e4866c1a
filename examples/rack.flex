pipeflex 1
# A 6 inch line on sleepers: anchored at W, guided at S2, round a corner at the battery limit to an anchor at N.
# Case cold is the weight of the filled and insulated pipe, case hot the same 150 K hotter and under 2 MPa.
material A106B 203400 300 11500 7850
section NPS6-40 A106B 168300 7110 1500 190000
node W 0 0 0
node S1 6000000 0 0
node S2 12000000 0 0
node S3 18000000 0 0
node E1 23771000 0 0
node E2 24000000 229000 0
node S4 24000000 3500000 0
node N 24000000 7000000 0
straight run1 W S1 NPS6-40
straight run2 S1 S2 NPS6-40
straight run3 S2 S3 NPS6-40
straight run4 S3 E1 NPS6-40
bend elbow E1 E2 NPS6-40 229000 90000 24000000 0 0
straight leg1 E2 S4 NPS6-40
straight leg2 S4 N NPS6-40
anchor west W - -
anchor north N - -
oneway rest1 S1 0 0 -1 0 -
oneway rest2 S2 0 0 -1 0 -
oneway rest3 S3 0 0 -1 0 -
oneway rest4 S4 0 0 -1 0 -
gap guide S2 0 1 0 2000 -
case cold 0 0 -1000 0 0 0
case hot 0 0 -1000 0 150000 2000000
