pipeflex 1
# A header of 10 m with a sloping branch and a riser, held at three ends, loaded between.
material st 203400 300 11500 7850
section pipe6 st 168300 7110 0 0
section pipe3 st 88900 5490 0 0
node a 0 0 0
node b 3000000 0 0
node c 6000000 0 0
node d 10000000 0 0
node e 6000000 2500000 1500000
node f 6000000 5000000 1500000
node g 3000000 0 4000000
straight ab a b pipe6
straight bc b c pipe6
straight cd c d pipe6
straight ce c e pipe3
straight ef e f pipe3
straight bg b g pipe3
anchor A a 1000000000000 1000000000000
anchor D d 1000000000000 1000000000000
anchor F f 1000000000000 1000000000000
case load 0 0 0 0 0 0
force load b 0 1000000 -2000000 0 0 0
force load e 500000 0 -1500000 0 0 0
force load g 800000 300000 0 0 0 150000
