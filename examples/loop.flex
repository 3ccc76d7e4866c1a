pipeflex 1
# a flat expansion loop, 2.4 m deep and 2 m wide, in a line of 4 inch pipe, schedule 40, between two anchors 12 m apart
material A106B 203400 300 11500 7850
section NPS4-40 A106B 114300 6020 0 0
node W 0 0 0
node P1 4848000 0 0
node P2 5000000 152000 0
node P3 5000000 2248000 0
node P4 5152000 2400000 0
node P5 6848000 2400000 0
node P6 7000000 2248000 0
node P7 7000000 152000 0
node P8 7152000 0 0
node E 12000000 0 0
straight west W P1 NPS4-40
bend elbow1 P1 P2 NPS4-40 152000 90000 5000000 0 0
straight out P2 P3 NPS4-40
bend elbow2 P3 P4 NPS4-40 152000 90000 5000000 2400000 0
straight top P4 P5 NPS4-40
bend elbow3 P5 P6 NPS4-40 152000 90000 7000000 2400000 0
straight back P6 P7 NPS4-40
bend elbow4 P7 P8 NPS4-40 152000 90000 7000000 0 0
straight east P8 E NPS4-40
anchor foot W - -
anchor head E - -
