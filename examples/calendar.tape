[The calendar of a month between January 1901 and December 2099. The rows after the entry are its data: the month
 and the year, each with F after it. Write your own in the last line.

 Flow diagram

        read the month and the year
          |
        the day is a Tuesday: 1 January 1901
          |
   +--> is it the year? --yes--+
   |      | no                 |
   |    one weekday on, and    |
   |    two in a leap year     |
   |      |                    |
   +------+                    |
          +--------------------+
          |
        in a leap year February has 29 days
          |
   +--> is it the month? --yes-+
   |      | no                 |
   |    as many weekdays on as |
   |    the month has days     |
   |      |                    |
   +------+                    |
          +--------------------+
          |
        take sevens away: the weekday, 0 for a Sunday
          |
        print the month, the year, the heads, and three spaces for each day before
          |
   +--> print a day, and after a Saturday a new line
   |      |
   +-yes- are days left?
          | no
         stop

 Look for: the leap years, by a count from -3 to 0; the list of lengths, which is reached by an order that is
 changed; the name of the month, which three orders that the program makes copy into the title.]

T45K P350F      [H: the numbers from 350 on]
T46K P290F      [N: the printing from 290 on]
T47K P330F      [M: the reading from 330 on]
T49K P200F      [L: the signs from 200 on]

[The numbers, H.]
T350K
PF PF P1F PF    [0: the year; the month; the weekday, 2 for a Tuesday; the number that was read, or is printed]
PF PD PF QF     [4: the figure; 1; a place to clear the accumulator into; 1 at the head of a word]
PF P5F          [8: the row that was read; 10]
P950D V2046D    [10: 1901; -3, the years to the next leap year]
PF PF PF        [12: a count; the length of the month; whether a figure was printed]
S20H            [15: the order that takes away the first power of ten that is wanted]
!F S23H         [16: a space; the order past the last power]
P2F A30H        [18: 4; the order for the length of January]
P500F P50F P5F  [20: 1000, 100 and 10]
S22H            [23: the order for 10]
@F O24L         [24: carriage return; the order past the signs that are wanted]
PF P3D PF &F    [26: the day of the week, counted up from -7; 7; the day; line feed]
P15D P14F P15D P15F P15D P15F  [30: the lengths of the months]
P15D P15D P15F P15D P15F P15D  [36]

[The signs, L: a subroutine that prints on from where it was to the order at 25H, and the signs.]
T200K GK
A3F T10@                [0: the link]
T6H                     [2: clear the accumulator]
O12@                    [3: print a sign]
A3@ A2F U3@             [4: the next sign]
S25H G2@                [7: again, if signs are left]
T6H                     [9]
PF                      [10: the link]
O51@                    [11: the order past the last sign]
*F !F !F !F !F !F !F !F !F !F !F #F [12: the title, with room for a month]
@F &F *F !F SF UF !F MF OF !F TF UF !F WF EF [24: the heads of the columns]
!F TF HF !F FF RF !F SF AF @F &F #F [39]
JF AF NF FF EF BF MF AF RF AF PF RF MF AF YF JF UF NF [51]
JF UF LF AF UF GF SF EF PF OF CF TF NF OF VF DF EF CF [69]

[The printing, N: the number at 3H, with a space for each nought before its first figure.]
T290K GK
A3F T38@                [0: the link]
T14H                    [2: no figure is printed yet]
A15H T8@                [3: the first power of ten]
T6H                     [5: clear the accumulator]
T4H                     [6: the figure is 0]
A3H                     [7]
PF                      [8: S and the place of a power of ten]
G15@                    [9: less is left]
T3H                     [10]
A4H A7H T4H             [11: the figure is one more]
E7@                     [14: the accumulator is 0: again]
T6H                     [15]
A4H A14H S7H G25@       [16: a nought before the first figure]
O4H                     [20: print the figure]
T6H A7H T14H            [21: from now on noughts are printed]
E26@                    [24]
O16H                    [25: print a space]
T6H                     [26]
A8@ A2F U8@             [27: the next power of ten]
S17H G5@                [30: again down to 10]
T6H                     [32]
A3H L512F LD            [33: the units, to the head of the word]
T4H O4H                 [36: print them]
PF                      [38: the link]

[The reading, M.]
T330K GK
A3F T17@                [0: the link]
T3H                     [2: the number is 0]
I8H                     [3: the next row]
A8H S9H E16@            [4: it is not a figure]
T6H                     [7]
A3H LD U6H              [8: twice the number]
L1F A6H A8H T3H         [11: ten times, and the figure]
E3@                     [15: the accumulator is 0: the next row]
T6H                     [16: clear the accumulator]
PF                      [17: the link]

[The master.]
T56K GK
A@ GM                   [0: the month]
A3H T1H                 [2]
A4@ GM                  [4: the year]
A3H TH                  [6]
T6H                     [8: clear the accumulator]
A10H SH E32@            [9: is it the year?]
T6H A2H A5H T2H         [12: one weekday on]
A11H G24@               [16: it is not a leap year]
T6H A2H A5H T2H         [18: one more]
S18H T11H               [22: four years to the next]
T6H                     [24]
A11H A5H T11H           [25: the years to the next leap year are one fewer]
A10H A5H T10H           [28: the next year]
E8@                     [31: the accumulator is 0: again]
T6H                     [32]
A11H G39@               [33: it is not a leap year]
T6H A31H A5H T31H       [35: February is one day longer]
T6H                     [39]
S1H A5H T12H            [40: the months to go, below 0]
A19H T51@               [43: begin with January]
T6H                     [45]
A12H E57@               [46: is it the month?]
A5H T12H                [48]
A2H                     [50: the weekday is that many days on]
PF                      [51: A and the place of the month's length]
T2H                     [52]
A51@ A2F T51@           [53: the next month]
E45@                    [56: the accumulator is 0: again]
A51@ T59@               [57: the order for its length]
PF                      [59]
T13H                    [60]
A2H                     [61]
S27H E62@               [62: take sevens away]
A27H T2H                [64: the weekday]
A1H S5H LD U6H          [66: six times the months before, 3 in an address]
LD A6H A132@            [70: the order for the first letter of the name]
U78@ A2F                [73: and for the other two]
U80@ A2F T82@           [75]
PF T19L                 [78: put them into the title]
PF T20L                 [80]
PF T21L                 [82]
A84@ GL                 [84: print the title]
AH T3H                  [86]
A88@ GN                 [88: print the year]
A11L T25H               [90: and the rest of the signs]
A92@ GL                 [92]
A23H T15H               [94: from now on two figures]
A2H S27H T26H           [96: the place in the week, below 0]
S2H T12H                [99: the days before, below 0]
T6H                     [101]
A12H E110@              [102: no day before is left]
A5H T12H                [104]
O16H O16H O16H          [106: three spaces]
E101@                   [109: the accumulator is 0: again]
T6H                     [110]
A28H A5H U28H U3H       [111: the next day]
S13H S5H E131@          [115: there are no more]
O16H                    [118]
T6H                     [119]
A120@ GN                [120: print the day]
A26H A5H U26H G110@     [122: the week is not over]
S27H T26H               [126]
O24H O29H               [128: a new line]
E110@                   [130]
ZF                      [131: stop]
A51L                    [132: the order for the first letter of JAN]
E56K PF
5F1949F
