pipeflex 1
# A pipe of 100 mm by 10 mm, built in at a wall, with 1 kN down at its free end 1 m away.
material steel 200000 300 12000 7850
section pipe steel 100000 10000 0 0
node wall 0 0 0
node end 1000000 0 0
straight arm wall end pipe
anchor A wall - -
case pull 0 0 0 0 0 0
force pull end 0 0 -1000000 0 0 0
