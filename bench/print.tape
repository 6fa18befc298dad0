[Two orders of three print a code, until the paper is full.]
T64K GK
O3@ O4@ E@
AF BF
EZ PF
