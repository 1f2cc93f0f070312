# Data in shared memory, which the client overwrites while the service reads it.
#
# The service copies each byte of a command once: the header, then all words in one copy, then the data in pieces of 4,096 bytes.
# It makes its copies one after another, numbered from 0. A line `at N ..` writes bytes just before copy N.

ring 16

# Region 1 has 8 bytes, of which five are "hello".
region 1 8
bytes 1 0 68656c6c6f

# Entry 0: GenBuffers 257 for the name 1. Its header is copy 0, and its word is copy 1.
bytes 0 0 0200202001000000

# Entry 2, at byte 8: BindBuffer 258 of ARRAY_BUFFER 0x8892 and the name 1. Copies 2 and 3.
bytes 0 8 030040209288000001000000

# Entry 5, at byte 20: BufferData 259 for ARRAY_BUFFER, 5 bytes, STATIC_DRAW 0x88E4.
# Its last four words say where the data is: source 1, which is shared memory, 5 bytes of region 1 from byte 0 on.
# Its header is copy 4, its seven words are copy 5, and its data is copy 6.
bytes 0 20 080060209288000005000000e488000001000000050000000100000000000000

# In time: the first byte of the data becomes "J" just before the data is copied.
at 6 1 0 4a

# Too late: the words of BufferData were copied and tested by now. A size of 5,000 bytes, and region 9, which there is not, change nothing.
at 6 0 28 88130000
at 6 0 44 09000000

# Too late: the data was copied, and there is no copy 7.
at 7 1 0 58

put 13

# It prints, with status 0:
#   driver 0 gen_buffer -> 1
#   driver 1 bind_buffer 0x8892 1
#   driver 2 buffer_data 0x8892 5:4a656c6c6f 0x88E4
#   end ok
