pipeflex 1
# The discharge of a pump, 4 inch: up from its nozzle, along and down to a header that settles by 4 mm, carried by a spring hanger.
# Case run is the pump in service at 90 K above the day it was built, case idle the cold line; both with weight and hanger.
material A106B 203400 300 11500 7850
section NPS4-40 A106B 114300 6020 1500 110000
node nozzle 0 0 0
node U1 0 0 1848000
node U2 152000 0 2000000
node hung 2500000 0 2000000
node V1 4848000 0 2000000
node V2 5000000 0 1848000
node header 5000000 0 600000
straight riser nozzle U1 NPS4-40
bend elbow1 U1 U2 NPS4-40 152000 90000 0 0 2000000
straight across1 U2 hung NPS4-40
straight across2 hung V1 NPS4-40
bend elbow2 V1 V2 NPS4-40 152000 90000 5000000 0 2000000
straight drop V2 header NPS4-40
anchor pump nozzle 50000000 20000000
anchor main header 1000000000 1000000000
hanger spring hung 15000 900000
case run 0 0 -1000 1 90000 1600000
case idle 0 0 -1000 1 0 0
move run pump 0 0 250
move run main 0 0 -4000
move idle main 0 0 -4000
