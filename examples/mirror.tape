[Reads a word from its own tape and prints it backwards.
 The rows after the entry are the program's own: first a digit, the number of letters, and then the letters.
 Write your own in the last line. Look for: the order at 6, which stores a letter and walks up the store, and
 the order at 20, which the program makes out of it and which walks down again.]
T64K GK
I28@            [0: how many letters come]
T29@            [1: clear the accumulator]
I30@            [2: the next row, as a number]
A30@ L512F LD   [3 to 5: to the upper end of the word, where O looks for it]
T40@            [6: store it]
A6@ A2F T6@     [7 to 9: the next letter goes one place on: location 2 holds 2, which is 1 in an address]
A28@ S27@ U28@  [10 to 12: one letter less]
S27@ E1@        [13, 14: again, if there is one]
T29@            [15: clear the accumulator]
A6@ A31@        [16, 17: make an order O of the order T]
S2F U20@        [18, 19: with the address one lower; plant it]
PF              [20: print a letter]
S32@ G26@       [21, 22: stop after the first one]
A32@ E18@       [23, 24: the order again, and one lower]
ZF              [25]
ZF              [26: stop]
PD              [27: 1]
PF              [28: how many letters]
PF              [29: the accumulator goes here to be cleared]
PF              [30: the row]
RF              [31: from T, function 5, to O, function 9]
O41@            [32: the order that prints the second letter]
EZPF
5CASDE
