[A tape that works out where its own words go. The first part is an interlude: it doubles a number, and
leaves the double at 45, where the letter H refers to it. It also makes an order T with the double as its
address, and returns with that order to the Initial Orders, which read on and put the next words there.
Look for: the order T at 105, an order that is never obeyed: the loader uses it as its directive.]
T100K GK
A6@ A6@     [100: twice the number]
U45F        [102: for the letter H]
A5@ E25F    [103: make an order T of it, and go back to the Initial Orders]
TF          [105: the order T, with no address yet]
P34F        [106: the number]
E100K PF    [enter it]
[The interlude has returned. H is twice the number, and so is the location of the next word.]
*F HF IF    [letter shift, H, I]
T64K
OH O1H O2H  [64: print the words at H, H + 1 and H + 2]
ZF          [67: stop]
E64K PF
