# Parts of a buffer, and its deletion: BufferSubData, DeleteBuffers.
ring 64

# Region 1 has the bytes "wxyz". The replies go to region 2.
region 1 4
bytes 1 0 7778797a
region 2 16

# Entry 0: BindBuffer 258 of ARRAY_BUFFER 0x8892 and the name 1, which comes into use.
bytes 0 0 030040209288000001000000

# Entry 3, at byte 12: BufferData 259 for ARRAY_BUFFER, 6 bytes of zeros, STATIC_DRAW 0x88E4.
bytes 0 12 080060209288000006000000e488000000000000000000000000000000000000

# Entry 11, at byte 44: BufferSubData 260 for ARRAY_BUFFER, from byte 2 on 4 bytes.
# Its last four words say where the data is: source 1, which is shared memory, 4 bytes of region 1 from byte 0 on.
bytes 0 44 0800802092880000020000000400000001000000040000000100000000000000

# Entry 19, at byte 76: BufferSubData from byte 3 on. It would end a byte behind the buffer's last: INVALID_VALUE.
bytes 0 76 0800802092880000030000000400000001000000040000000100000000000000

# Entry 27, at byte 108: GetError 327, with the reply in region 2 from byte 0 on.
bytes 0 108 0300e0280200000000000000

# Entry 30, at byte 120: DeleteBuffers 261 for the name 1. The buffer goes, and ARRAY_BUFFER binds nothing.
bytes 0 120 0200a02001000000

# Entry 32, at byte 128: BufferSubData of no bytes, from byte 0 on. It needs no data, so its last four words may be zero.
# Nothing is bound: INVALID_OPERATION.
bytes 0 128 0800802092880000000000000000000000000000000000000000000000000000

# Entry 40, at byte 160: GetError, with the reply from byte 8 on.
bytes 0 160 0300e0280200000008000000

# Entry 43, at byte 172: BindBuffer of ARRAY_BUFFER and the name 1 again. It stands for a new buffer, with a new driver name.
bytes 0 172 030040209288000001000000

# Entry 46, at byte 184: DeleteBuffers for the name 7, which is not in use. It makes no driver call.
bytes 0 184 0200a02007000000
put 48

# It prints, with status 0:
#   reply 4 error INVALID_VALUE
#   reply 7 error INVALID_OPERATION
#   driver 0 gen_buffer -> 1
#   driver 1 bind_buffer 0x8892 1
#   driver 2 buffer_data 0x8892 6:000000000000 0x88E4
#   driver 3 buffer_sub_data 0x8892 2 4:7778797a
#   driver 4 delete_buffer 1
#   driver 5 gen_buffer -> 2
#   driver 6 bind_buffer 0x8892 2
#   end ok
