pipeflex 1
material A106B 203400 300 11500 7850   # carbon steel
section NPS6-40 A106B 168300 7110 0 0
node P1 0 0 0
node P2 0 0 6000000
straight riser P1 P2 NPS6-40
