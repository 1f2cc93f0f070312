# Textures: what was never written of an image is zeroed before it is read, and no earlier.
#
# Nothing is rasterized here. The driver is given each draw, with a bit for each texture unit that reads as black.

ring 256

# The link goes well: the program has a sampler, which names the texture unit 0.
link ok -
uniform image SAMPLER_2D 1

# Region 1: replies at byte 0, and at 16 the pixels of 2 by 2, RGBA.
region 1 64
bytes 1 16 ff0000ff00ff00ff0000ffffffffffff

# Entry 0: a program, as in triangle.ring: two shaders are made, compiled and attached, and the program is linked and used.
bytes 0 0 0500002301000000318b00000100000000000000
bytes 0 20 0200402301000000
bytes 0 28 0500002302000000308b00000100000000000000
bytes 0 48 0200402302000000
bytes 0 56 04008023030000000100000000000000
bytes 0 72 0300a0230300000001000000
bytes 0 84 0300a0230300000002000000
bytes 0 96 0200002403000000
bytes 0 104 0200402403000000

# Entry 28, at byte 112: DrawArrays 322 of TRIANGLES 4. The default texture has no images, so it is not complete: unit 0 reads as black.
bytes 0 112 04004028040000000000000003000000

# Entry 32, at byte 128: GenTextures 262 of the name 1, BindTexture 263 to TEXTURE_2D 0x0DE1, and TexParameteri 269: TEXTURE_MIN_FILTER 0x2801 is NEAREST 0x2600.
bytes 0 128 0200c02001000000
bytes 0 136 0300e020e10d000001000000
bytes 0 148 0400a021e10d00000128000000260000

# Entry 41, at byte 164: TexImage2D 265: level 0 is RGBA 0x1908 of UNSIGNED_BYTE 0x1401, 4 by 4, without data. Nothing of it is written, and nothing is zeroed yet.
bytes 0 164 0d002021e10d00000000000008190000040000000400000000000000081900000114000000000000000000000000000000000000

# Entry 54, at byte 216: TexSubImage2D 266: the 2 by 2 pixels in the middle, from (1, 1) on.
bytes 0 216 0d004021e10d00000000000001000000010000000200000002000000081900000114000001000000100000000100000010000000

# Entry 67, at byte 268: a draw reads the image, so the rest is zeroed first: the row before, the row behind, the column left, the column right.
bytes 0 268 04004028040000000000000003000000

# Entry 71, at byte 284: the same again. The image is whole, so nothing is zeroed.
bytes 0 284 04004028040000000000000003000000

# Entry 75, at byte 300: a part that leaves the image: INVALID_VALUE, as GetError 327 says, and no driver call.
bytes 0 300 0d004021e10d00000000000003000000030000000200000002000000081900000114000001000000100000000100000010000000
bytes 0 352 0300e0280100000000000000

# Entry 91, at byte 364: DeleteTextures 264. The unit binds the default texture again, and reads as black.
bytes 0 364 0200002101000000
bytes 0 372 04004028040000000000000003000000

put 97

# It prints, with status 0:
#   reply 0 word 1
#   reply 2 word 2
#   reply 4 word 3
#   reply 18 error INVALID_VALUE
#   driver 0 create_shader 0x8B31 -> 1
#   driver 1 compile_shader 1 -> ok
#   driver 2 create_shader 0x8B30 -> 2
#   driver 3 compile_shader 2 -> ok
#   driver 4 create_program -> 3
#   driver 5 attach_shader 3 1
#   driver 6 attach_shader 3 2
#   driver 7 link_program 3 -> ok
#   driver 8 use_program 3
#   driver 9 draw_arrays 0x0004 0 3 1
#   driver 10 gen_texture -> 1
#   driver 11 bind_texture 0x0DE1 1
#   driver 12 tex_parameter 0x0DE1 0x2801 0x2600
#   driver 13 tex_image 0x0DE1 0 0x1908 0x1401 4 4 none
#   driver 14 tex_sub_image 0x0DE1 0 1 1 2 2 0x1908 0x1401 16:ff0000ff00ff00ff0000ffffffffffff
#   driver 15 zero_level 1 0x0DE1 0 0 0 4 1
#   driver 16 zero_level 1 0x0DE1 0 0 3 4 1
#   driver 17 zero_level 1 0x0DE1 0 0 1 1 2
#   driver 18 zero_level 1 0x0DE1 0 3 1 1 2
#   driver 19 draw_arrays 0x0004 0 3 0
#   driver 20 draw_arrays 0x0004 0 3 0
#   driver 21 delete_texture 1
#   driver 22 draw_arrays 0x0004 0 3 1
#   end ok
