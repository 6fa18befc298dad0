[An order that jumps to itself.]
T64K GK
E@
EZ PF
