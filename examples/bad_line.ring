# A text outside the grammar: nothing of it is run.
ring 16
bytes 0 0 0200202001000000

# The next line is line 6. Its four bytes would leave the ring, which has 64.
bytes 0 62 00112233
put 2

# It prints, with status 3:
#   bad line 6
