[The natural logarithm of 2 by Simpson's rule: the area under 1/(1+x) from 0 to 1, in 64 strips.

 Flow diagram

   master: print LOG 2 =
          |
        x = 0; sum = half of the first ordinate
          |
   +--> x = x + 1/64; sum = sum + twice the ordinate
   |      |
   |    x = x + 1/64; sum = sum + the ordinate
   |      |
   +-yes- are pairs of strips left?
          | no
        sum = sum - half of the last ordinate
          |
        print the sum; stop

   subroutine N, an ordinate over 48: y = 1/4
          |
   +--> y = y + 8y (1/8 - uy), where u = (1+x)/4: y approaches 1/(8u) = 1/(2(1+x))
   |      |
   +-yes- fewer than six times?
          | no
        put y/48 at 6H

   subroutine M, eight figures of the fraction at 4H: ten sixteenths of it bring a figure to the head

 The sum of Simpson's rule is h/3 (y0 + 4 y1 + 2 y2 + 4 y3 + .. + y64) with h = 1/64. Since y is half of 1/(1+x),
 that is 1/48 of half of y0, twice y1, y2, twice y3, and so on. All numbers are fractions below 1.
 Look for: a quotient without a division, by an iteration that doubles the number of good figures each time; the three
 preset parameters, H for the numbers, M and N for the subroutines, so that each part can be put elsewhere.]

T45K P200F      [H: the numbers from 200 on]
T46K P150F      [N: the ordinate from 150 on]
T47K P120F      [M: the printing from 120 on]

[The numbers, H. A long one begins at an even place: the lower half, then the upper.]
T200K
PF RF           [0: u, a quarter at first: R, function 4, is four sixteenths]
PF PF           [2: y]
PF PF           [4: the sum]
PF PF           [6: y/48, and a place to clear the accumulator into]
H682D P682D     [8: 1/48]
PF RF           [10: a quarter, where y begins]
WF              [12: an eighth: W, function 2, is two sixteenths]
P128F           [13: what u grows by: 1/256]
PD              [14: 1]

[The ordinate, N.]
T150K GK
A3F T25@        [0: the link]
S26@ T27@       [2: six times]
A10#H T2#H      [4: y = 1/4]
T6#H            [6: clear the accumulator]
H#H N2#H        [7: less u times y,]
A12H            [9: and an eighth:]
L2F T6#H        [10: eight times as much]
H6#H V2#H       [12: times y]
A2#H YF T2#H    [14: and y: the next y, rounded]
A27@ A14H U27@  [17: one time more]
G6@             [20: again, below 0]
H8#H V2#H       [21: 1/48 of y]
YF T6#H         [23]
PF              [25: the link]
P3F             [26: 6]
PF              [27: the count]

[The printing, M.]
T120K GK
A3F T20@        [0: the link]
S21@ T22@       [2: eight figures]
T6#H            [4: clear the accumulator]
H23@ V4#H T4#H  [5: ten sixteenths]
H24@ C4#H T25@  [8: the figure at the head]
O25@            [11: print it]
A4#H S25@       [12: take it away]
L4F T4#H        [14: sixteen times]
A22@ A14H U22@  [16: one figure more]
G4@             [19: again, below 0]
PF              [20: the link]
P4F             [21: 8]
PF              [22: the count]
JF              [23: ten sixteenths: J is function 10]
VF              [24: the five digits of the head: V is function 31]
PF              [25: the figure]

[The master.]
T56K GK
T6#H            [0: clear the accumulator]
O43@            [1: print a sign of the title]
A1@ A2F U1@     [2: the next sign: 2 is 1 in an address]
S42@ G@         [5: again, if signs are left]
A7@ GN          [7: the first ordinate]
A6#H RD T4#H    [9: half of it begins the sum]
T6#H            [12: clear the accumulator]
A#H A13H T#H    [13: the next u]
A16@ GN         [16: its ordinate,]
A6#H LD         [18: twice]
A4#H T4#H       [20: to the sum]
A#H A13H T#H    [22: the next u]
A25@ GN         [25: its ordinate]
A6#H A4#H T4#H  [27: to the sum]
A41@ A14H U41@  [30: one pair more]
G12@            [33: again, below 0]
S6#H RD         [34: half of the last ordinate away]
A4#H T4#H       [36]
A38@ GM         [38: print the sum]
ZF              [40: stop]
V2032F          [41: -32, the pairs of strips]
O54@            [42: the order past the title]
*F LF OF GF !F #F WF !F VF !F MF  [43: LOG 2 = . and the shifts; W is the code of 2, V of = and M of . in figures]
E56K PF
