pipeflex 1
# A branch of 6 inch pipe, schedule 40, welded to a vessel, with a valve of 2 kN at its end.
material A106B 203400 300 11500 7850   # carbon steel
section NPS6-40 A106B 168300 7110 0 0
node nozzle 0 0 0
node flange 3000000 0 0
straight branch nozzle flange NPS6-40
anchor vessel nozzle - -
case valve 0 0 0 0 0 0
force valve flange 0 0 -2000000 0 0 0
