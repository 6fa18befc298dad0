[Jumps to itself for ever: run it with a limit.
 Look for: the status, 4, and that the limit counts the orders that read the tape.]
T64K GK
E@
EZPF
