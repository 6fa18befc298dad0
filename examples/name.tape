[Prints EDSAC and stops. Look for: the letters, which are words after the orders, from 70 on: write your own there.]
T64K GK
O6@ O7@ O8@ O9@ O10@ ZF
EF DF SF AF CF
EZPF
