# Calls that OpenGL ES refuses: each records its code, makes no driver call, and the run goes on.
ring 64

# Entry 0: BufferData 259 for ARRAY_BUFFER while nothing is bound: INVALID_OPERATION.
bytes 0 0 080060209288000010000000e488000000000000000000000000000000000000

# Entry 8, at byte 32: BindBuffer 258 of a target 0x1234 that there is not: INVALID_ENUM.
# It brings no name into use: the name 1 is free after it.
bytes 0 32 030040203412000001000000

# Entry 11, at byte 44: GenBuffers 257 for the name 1.
bytes 0 44 0200202001000000

# Entry 13, at byte 52: BindBuffer of ARRAY_BUFFER and the name 1.
bytes 0 52 030040209288000001000000

# Entry 16, at byte 64: BufferData of -1 bytes: INVALID_VALUE.
bytes 0 64 0800602092880000ffffffffe488000000000000000000000000000000000000

# Entry 24, at byte 96: BufferData of 67,108,865 bytes, one above the limit: OUT_OF_MEMORY.
bytes 0 96 080060209288000001000004e488000000000000000000000000000000000000

# Entry 32, at byte 128: BufferData of 4 bytes with DYNAMIC_DRAW 0x88E8, which is not refused.
bytes 0 128 080060209288000004000000e888000000000000000000000000000000000000
put 40

# It prints, with status 0 (the codes are kept, and no command of this script reads them):
#   driver 0 gen_buffer -> 1
#   driver 1 bind_buffer 0x8892 1
#   driver 2 buffer_data 0x8892 4:00000000 0x88E8
#   end ok
