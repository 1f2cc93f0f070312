# A buffer of sixteen bytes: GenBuffers, BindBuffer, BufferData.
#
# A command is a header and then its argument words, each an entry of four bytes with the lowest byte first.
# A header is NUMBER * 2^21 + SIZE, where SIZE counts the entries of the command with its header.
# So GenBuffers, whose number is 257 and whose size is 2, begins with 0x20200002, which are the bytes 02 00 20 20.

# The ring has 16 entries, which are 64 bytes. They are zero where no line sets them.
ring 16

# Entry 0: GenBuffers 257 for the name 1. The client picks the name.
bytes 0 0 0200202001000000

# Entry 2, at byte 8: BindBuffer 258 of ARRAY_BUFFER 0x8892 and the name 1.
bytes 0 8 030040209288000001000000

# Entry 5, at byte 20: BufferData 259 for ARRAY_BUFFER, 16 bytes, STATIC_DRAW 0x88E4.
# The last four words are zero: the command has no data, and the buffer has zeros.
bytes 0 20 080060209288000010000000e488000000000000000000000000000000000000

# The client publishes put: the commands stand before entry 13.
put 13

# It prints, with status 0:
#   driver 0 gen_buffer -> 1
#   driver 1 bind_buffer 0x8892 1
#   driver 2 buffer_data 0x8892 16:00000000000000000000000000000000 0x88E4
#   end ok
