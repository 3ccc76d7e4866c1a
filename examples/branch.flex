pipeflex 1
# a header of 6 inch pipe, schedule 40, 4 m long between two anchors, with a branch of 3 inch pipe upwards from its middle
material A106B 203400 300 11500 7850
section NPS6-40 A106B 168300 7110 0 0
section NPS3-40 A106B 88900 5490 0 0
node W 0 0 0
node T 2000000 0 0
node E 4000000 0 0
node B 2000000 0 1500000
straight west W T NPS6-40
straight east T E NPS6-40
straight branch T B NPS3-40
tee T branch NPS6-40 pad 7110
anchor foot W - -
anchor head E - -
