[A long division to many places, as on paper. The rows after the entry are its data: how many places are wanted, the
 dividend and the divisor, each with F after it. The divisor is 6,553 at most, and the quotient is below 10.

 Flow diagram

        read and print the number of places, the dividend and the divisor
          |
        print the figure before the point
          |
   +--> rest = 10 times the rest
   |      |
   |    print a figure; it leaves a rest
   |      |
   |    are all places printed? --yes-- stop
   |      | no
   |    after ten figures a space, after fifty a new line
   |      |
   +------+

   subroutine N, a figure: it is 0
          |
   +--> rest - divisor, is it below 0? --yes-- print the figure; back
   |      | no
   |    that is the rest; the figure is one more
   |      |
   +------+

 Look for: the three counts that begin below 0 and end a loop when they are 0; the data on the same tape. Write numbers
 of your own in the last line.]

T45K P250F      [H: the numbers from 250 on]
T46K P200F      [N: the figure from 200 on]
T47K P150F      [M: the reading from 150 on]

[The numbers, H.]
T250K
PF PF PF        [0: the rest; the divisor; the places, counted up from below 0]
PF PF           [3: the number that was read; the figure, at the head of the word]
PD PF QF        [5: 1; a place to clear the accumulator into; 1 at the head of the word]
PF P5F          [8: the row that was read; 10]
V2043F V2045D   [10: -10, the figures of a group; -5, the groups of a line]
P2D             [12: 5]

[The figure, N.]
T200K GK
A3F T13@                [0: the link]
T4H                     [2: the figure is 0]
AH                      [3: the rest]
S1H G11@                [4: less the divisor]
TH                      [6: that is the rest]
A4H A7H T4H             [7: the figure is one more]
E3@                     [10: the accumulator is 0: again]
T6H                     [11: clear the accumulator]
O4H                     [12: print the figure]
PF                      [13: the link]

[The reading, M. It prints the figures of the number too.]
T150K GK
A3F T21@                [0: the link]
T3H                     [2: the number is 0]
I8H                     [3: the next row]
A8H S9H E20@            [4: it is not a figure]
A9H L512F LD            [7: to the head of the word]
T4H O4H                 [10: print it]
A3H LD U6H              [12: twice the number]
L1F A6H A8H T3H         [15: ten times, and the figure]
E3@                     [19: the accumulator is 0: the next row]
T6H                     [20: clear the accumulator]
PF                      [21: the link]

[The master.]
T56K GK
O73@                    [0: figure shift]
A1@ GM                  [1: the number of places]
S3H T2H                 [3]
T6H                     [5: clear the accumulator]
O61@                    [6: print a sign of the title]
A6@ A2F U6@             [7: the next sign]
S60@ G5@                [10: again, if signs are left]
A12@ GM                 [12: the dividend]
A3H TH                  [14]
O74@                    [16]
A17@ GM                 [17: the divisor]
A3H T1H                 [19]
O77@ O78@               [21]
A23@ GN                 [23: the figure before the point]
O75@ O77@ O78@          [25]
T6H                     [28: clear the accumulator]
AH LD U6H               [29: twice the rest]
L1F A6H TH              [32: ten times]
A35@ GN                 [35: a figure]
A2H A5H U2H E59@        [37: all places are printed]
T6H                     [41]
A10H A5H U10H G28@      [42: a group has ten figures]
S9H T10H                [46]
A11H A5H U11H E54@      [48: a line has five groups]
O76@ G28@               [52: the accumulator is below 0]
S12H T11H               [54]
O77@ O78@ E28@          [56]
ZF                      [59: stop]
O74@                    [60: the order past the title]
*F !F PF LF AF CF EF SF !F OF FF !F #F [61: PLACES OF, and the shifts]
XF                      [74: X is / in figures]
MF                      [75: M is the full stop]
!F                      [76]
@F                      [77]
&F                      [78]
E56K PF
42F1F49F
