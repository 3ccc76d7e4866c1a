pipeflex 1
# A bent cantilever in space: 2 m, 1.5 m and 1 m along x, y and z, with a force and a moment at its end.
material st 200000 300 12000 7850
section tube st 100000 10000 0 0
node a 0 0 0
node b 2000000 0 0
node c 2000000 1500000 0
node d 2000000 1500000 1000000
straight ab a b tube
straight bc b c tube
straight cd c d tube
anchor A a 1000000000000 1000000000000
case load 0 0 0 0 0 0
force load d 300000 3000000 -500000 200000 100000 400000
