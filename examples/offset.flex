pipeflex 1
# A 4 inch line, schedule 40: a run along x, an offset down at 45 degrees, and a drop, with its supports and a valve's weight.
material A312-316 195000 300 15900 8000
section NPS4-40 A312-316 114300 6020 1000 85000
node N10 0 0 0
node N20 4000000 0 0
node N30 5500000 0 -1500000
node N40 5500000 0 -4200000
straight run N10 N20 NPS4-40
straight offset N20 N30 NPS4-40
straight drop N30 N40 NPS4-40
anchor A10 N10 - -
anchor A40 N40 - -
linear guide N20 0 1 0 -
case rest 0 0 0 0 0 0
case valve 0 0 0 0 0 0
force valve N20 0 0 -450000 0 0 0
