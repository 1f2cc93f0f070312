# Vertex attributes: VertexAttrib4f, VertexAttribPointer, EnableVertexAttribArray, DisableVertexAttribArray.
#
# There are sixteen attributes, 0 to 15. Each has an array, which is enabled or not, and a constant value for where it is not.

ring 64

# The replies go to region 2.
region 2 16

# Entry 0: VertexAttrib4f 293 for the attribute 15: the patterns of the floats 0.5, 0, 0 and 1.
bytes 0 0 0600a0240f0000000000003f00000000000000000000803f

# Entry 6, at byte 24: BindBuffer 258 of ARRAY_BUFFER 0x8892 and the name 1, which comes into use.
bytes 0 24 030040209288000001000000

# Entry 9, at byte 36: VertexAttribPointer 294 for the attribute 0. Its array lies in the buffer that ARRAY_BUFFER binds:
# 3 numbers an element, FLOAT 0x1406, not normalized, 12 bytes from one element to the next, the first at byte 4.
bytes 0 36 0700c024000000000300000006140000000000000c00000004000000

# Entry 16, at byte 64: EnableVertexAttribArray 295 for the attribute 0.
bytes 0 64 0200e02400000000

# Entry 18, at byte 72: EnableVertexAttribArray for the attribute 16, which there is not: INVALID_VALUE.
bytes 0 72 0200e02410000000

# Entry 20, at byte 80: VertexAttribPointer for the attribute 16 with the kind INT 0x1404, which no array has.
# Two rules are broken. The kind is looked at first, so INVALID_ENUM is recorded and INVALID_VALUE is not.
bytes 0 80 0700c024100000000300000004140000000000000c00000004000000

# Entry 27, at byte 108: GetError 327, with the reply in region 2 from byte 0 on.
bytes 0 108 0300e0280200000000000000

# Entry 30, at byte 120: GetError, with the reply from byte 8 on. It gives the code of entry 18.
bytes 0 120 0300e0280200000008000000

# Entry 33, at byte 132: BindBuffer of ARRAY_BUFFER and 0, which binds nothing.
bytes 0 132 030040209288000000000000

# Entry 36, at byte 144: VertexAttribPointer for the attribute 1, whose array now lies in no buffer:
# 4 numbers an element, UNSIGNED_BYTE 0x1401, normalized, as the word is not 0, one behind the other, from byte 0 on.
bytes 0 144 0700c024010000000400000001140000070000000000000000000000

# Entry 43, at byte 172: DisableVertexAttribArray 296 for the attribute 0.
bytes 0 172 0200002500000000
put 45

# It prints, with status 0:
#   reply 6 error INVALID_ENUM
#   reply 7 error INVALID_VALUE
#   driver 0 vertex_attrib_4 15 0x3F000000 0x00000000 0x00000000 0x3F800000
#   driver 1 gen_buffer -> 1
#   driver 2 bind_buffer 0x8892 1
#   driver 3 vertex_attrib_pointer 0 3 0x1406 0 12 4
#   driver 4 set_array 0 1
#   driver 5 bind_buffer 0x8892 0
#   driver 6 vertex_attrib_pointer 1 4 0x1401 1 0 0
#   driver 7 set_array 0 0
#   end ok
