[Prints the digits from 9 down to 0, in figure shift, and stops.
 Look for: the digit at 8, which is the function of a word and not a number, and the E at 6, which goes back.]
T64K GK
O11@        [0: figure shift]
T10@        [1: clear the accumulator]
O8@         [2: print the digit]
A8@ S9@ U8@ [3 to 5: one less]
E1@         [6: again if it is not negative]
ZF          [7: stop]
OF          [8: the digit, 9 at first]
QF          [9: one, as the function of a word]
PF          [10: the accumulator goes here to be cleared]
#F          [11: the code of figure shift]
EZPF
