# A malformed command: it does nothing, and the run stops there for good. What came before it stands.
ring 16

# Entry 0: GenBuffers 257 for the name 7.
bytes 0 0 0200202007000000

# Entry 2, at byte 8: BindBuffer 258 of ELEMENT_ARRAY_BUFFER 0x8893 and the name 7.
bytes 0 8 030040209388000007000000

# Entry 5, at byte 20: GenBuffers for the name 7 again. A name in use can't be given, so the command is malformed.
bytes 0 20 0200202007000000

# Entry 7, at byte 28: GenBuffers for the name 8, which is never read.
bytes 0 28 0200202008000000
put 9

# It prints, with status 6:
#   driver 0 gen_buffer -> 1
#   driver 1 bind_buffer 0x8893 1
#   stop InvalidArguments 5
