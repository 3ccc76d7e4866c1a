pipeflex 1
# A portal on four columns of 3 m with beams of 4 m and 5 m, pushed at two knees and loaded on one beam.
material st 200000 300 12000 7850
section tube st 100000 10000 0 0
section post st 168300 7110 0 0
node p 0 0 0
node q 4000000 0 0
node r 4000000 5000000 0
node s 0 5000000 0
node k 0 0 3000000
node l 4000000 0 3000000
node m 4000000 5000000 3000000
node n 0 5000000 3000000
node o 2000000 0 3000000
straight pk p k post
straight ql q l post
straight rm r m post
straight sn s n post
straight ko k o tube
straight ol o l tube
straight lm l m tube
straight mn m n tube
straight nk n k tube
anchor P p 1000000000000 1000000000000
anchor Q q 1000000000000 1000000000000
anchor R r 1000000000000 1000000000000
anchor S s 1000000000000 1000000000000
case load 0 0 0 0 0 0
force load k 2000000 0 0 0 0 0
force load n 1000000 500000 0 0 0 0
force load o 0 0 -5000000 0 0 0
