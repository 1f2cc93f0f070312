# A triangle: a program, three vertices in a buffer, fixed state, a Clear and draws.
#
# Nothing is rasterized here. The driver is given each draw, with a bit for each texture unit that reads as black: none, as nothing is sampled.

# The default framebuffer has 320 by 200 pixels.
surface 320 200
ring 256

# The link goes well: the program has an attribute of two floats at the location 0.
link ok -
attr position FLOAT_VEC2 0

# Region 1: replies at byte 0, three vertices of two floats at 16, and the indices 0, 1, 2 and 3 at 40, one byte each.
region 1 64
bytes 1 16 000080bf000080bf0000803f000080bf000000000000803f
bytes 1 40 00010203

# Entry 0: CreateShader 280 of the name 1, a VERTEX_SHADER 0x8B31; and CompileShader 282 of it.
bytes 0 0 0500002301000000318b00000100000000000000
bytes 0 20 0200402301000000

# Entry 7, at byte 28: the same of the name 2, a FRAGMENT_SHADER 0x8B30.
bytes 0 28 0500002302000000308b00000100000000000000
bytes 0 48 0200402302000000

# Entry 14, at byte 56: CreateProgram 284 of the name 3, AttachShader 285 of both, LinkProgram 288, UseProgram 290.
bytes 0 56 04008023030000000100000000000000
bytes 0 72 0300a0230300000001000000
bytes 0 84 0300a0230300000002000000
bytes 0 96 0200002403000000
bytes 0 104 0200402403000000

# Entry 28, at byte 112: GenBuffers 257 of the name 1, BindBuffer 258 to ARRAY_BUFFER 0x8892, BufferData 259 of 24 bytes of region 1, STATIC_DRAW 0x88E4.
bytes 0 112 0200202001000000
bytes 0 120 030040209288000001000000
bytes 0 132 080060209288000018000000e488000001000000180000000100000010000000

# Entry 41, at byte 164: VertexAttribPointer 294 of the attribute 0: 2 FLOATs 0x1406 an element, one behind the other; and EnableVertexAttribArray 295.
bytes 0 164 0700c024000000000200000006140000000000000000000000000000
bytes 0 192 0200e02400000000

# Entry 50, at byte 200: Viewport 320 of the whole framebuffer, and Enable 297 of DEPTH_TEST 0x0B71.
bytes 0 200 05000028000000000000000040010000c8000000
bytes 0 220 02002025710b0000

# Entry 57, at byte 228: ClearColor 302 with a red of 2, which is cut to 1; and Clear 321 of colour 0x4000 and depth 0x0100.
bytes 0 228 0500c0250000004000000000000000000000803f
bytes 0 248 0200202800410000

# Entry 64, at byte 256: DrawArrays 322: TRIANGLES 4, from the vertex 0 on, 3 of them.
bytes 0 256 04004028040000000000000003000000

# Entry 68, at byte 272: the same with 4 vertices. The fourth is not inside the buffer: INVALID_OPERATION, and no driver call. GetError 327 says so.
bytes 0 272 04004028040000000000000004000000
bytes 0 288 0300e0280100000000000000

# Entry 75, at byte 300: the buffer 2, bound to ELEMENT_ARRAY_BUFFER 0x8893, has the four indices.
bytes 0 300 0200202002000000
bytes 0 308 030040209388000002000000
bytes 0 320 080060209388000004000000e488000001000000040000000100000028000000

# Entry 88, at byte 352: DrawElements 323: TRIANGLES, 3 indices of UNSIGNED_BYTE 0x1401 from the byte 0 on.
bytes 0 352 0500602804000000030000000114000000000000

# Entry 93, at byte 372: the same from the byte 1 on: the greatest index is 3, which is not inside the array. INVALID_OPERATION, as GetError says.
bytes 0 372 0500602804000000030000000114000001000000
bytes 0 392 0300e0280100000000000000

put 101

# It prints, with status 0:
#   reply 0 word 1
#   reply 2 word 2
#   reply 4 word 3
#   reply 20 error INVALID_OPERATION
#   reply 26 error INVALID_OPERATION
#   driver 0 create_shader 0x8B31 -> 1
#   driver 1 compile_shader 1 -> ok
#   driver 2 create_shader 0x8B30 -> 2
#   driver 3 compile_shader 2 -> ok
#   driver 4 create_program -> 3
#   driver 5 attach_shader 3 1
#   driver 6 attach_shader 3 2
#   driver 7 link_program 3 -> ok
#   driver 8 use_program 3
#   driver 9 gen_buffer -> 1
#   driver 10 bind_buffer 0x8892 1
#   driver 11 buffer_data 0x8892 24:000080bf000080bf0000803f000080bf000000000000803f 0x88E4
#   driver 12 vertex_attrib_pointer 0 2 0x1406 0 0 0
#   driver 13 set_array 0 1
#   driver 14 set_raster 320 0x00000000 0x00000000 0x00000140 0x000000C8
#   driver 15 set_raster 297 0x00000B71
#   driver 16 set_raster 302 0x3F800000 0x00000000 0x00000000 0x3F800000
#   driver 17 clear 16640
#   driver 18 draw_arrays 0x0004 0 3 0
#   driver 19 gen_buffer -> 2
#   driver 20 bind_buffer 0x8893 2
#   driver 21 buffer_data 0x8893 4:00010203 0x88E4
#   driver 22 draw_elements 0x0004 3 0x1401 0 0
#   end ok
