[A loop of short additions, subtractions and transfers. The numbers are after the stop order.]
T64K GK
A9@ T10@ A10@ A9@ U11@ S9@ T10@ E@
ZF
P5F PF PF
EZ PF
