# Noops and comments.
#
# A line that begins with `#` is passed over, and so is an empty one. Both are counted where a bad line is named.

# Without a line `ring` the ring has 4,096 entries.

# A Noop has the number 0, so its header is its size. It is the one command of any size from 1 on.
# Entry 0: a Noop of one entry, the header alone.
bytes 0 0 01000000

# Entry 1: a Noop of four entries. The three behind its header are not read: they may be anything, in upper case too.
bytes 0 0x4 04000000DEADBEEFffffffff00112233

# Entry 5: two lines set the same bytes, and the later one stands, a Noop.
bytes 0 0x14 ffffffff
bytes 0 0x14 01000000

# A hyphen stands for no bytes.
bytes 0 0 -

# Entry 6, at byte 24: GenBuffers 257 for the name 0xFFFFFEFF, the greatest ordinary one.
bytes 0 24 02002020fffeffff

# A number may be written in hexadecimal.
put 0x8

# It prints, with status 0:
#   driver 0 gen_buffer -> 1
#   end ok
