[A loop over long locations: multiply, shift right and left, round, transfer. The long numbers are at even locations
after the stop order.]
T64K GK
H10#@ V12#@ RD LD YF T14#@ E@
ZF PF PF
P1000F P2000F P3F P1024F PF PF
EZ PF
