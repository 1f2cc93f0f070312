# Framebuffers: what is drawn to, read from it and copied, and what a deletion leaves of it.
#
# Nothing is rasterized here: the line `pixels` says what the driver reads.

ring 256

# Two pixels of four bytes, for the first read.
pixels 4080bfff4080bf00

# Region 1: replies, and at 16 the bytes of a bucket.
region 1 64

# Entry 0: GenTextures 262 of the name 1, BindTexture 263 to TEXTURE_2D 0x0DE1, and TexImage2D 265: level 0 is RGBA 0x1908 of UNSIGNED_BYTE 0x1401, 4 by 4, without data.
bytes 0 0 0200c02001000000
bytes 0 8 0300e020e10d000001000000
bytes 0 20 0d002021e10d00000000000008190000040000000400000000000000081900000114000000000000000000000000000000000000

# Entry 18, at byte 72: GenRenderbuffers 271 of the name 1, BindRenderbuffer 272 to RENDERBUFFER 0x8D41, and RenderbufferStorage 274: DEPTH_COMPONENT16 0x81A5, 4 by 4.
bytes 0 72 0200e02101000000
bytes 0 80 03000022418d000001000000
bytes 0 92 05004022418d0000a58100000400000004000000

# Entry 28, at byte 112: GenFramebuffers 275 of the name 1, and BindFramebuffer 276 to FRAMEBUFFER 0x8D40. A Clear 321 of the colours 0x4000: nothing is attached, so it is INVALID_FRAMEBUFFER_OPERATION, as GetError 327 says, and no driver call.
bytes 0 112 0200602201000000
bytes 0 120 03008022408d000001000000
bytes 0 132 0200202800400000
bytes 0 140 0300e0280100000000000000

# Entry 38, at byte 152: FramebufferTexture2D 278: the texture at COLOR_ATTACHMENT0 0x8CE0; and FramebufferRenderbuffer 279: the renderbuffer at DEPTH_ATTACHMENT 0x8D00.
bytes 0 152 0600c022408d0000e08c0000e10d00000100000000000000
bytes 0 176 0500e022408d0000008d0000418d000001000000

# Entry 49, at byte 196: Clear again. Nothing was written of what is attached, so both are zeroed first, also the depths, which the mask does not name.
bytes 0 196 0200202800400000

# Entry 51, at byte 204: ReadPixels 324: from (1, 2) on 2 by 1 pixels, RGBA of UNSIGNED_BYTE, into the bucket 0; and GetBucketData 5: the second pixel, from byte 4 of the bucket on 4 bytes, to byte 16 of region 1.
bytes 0 204 0800802801000000020000000200000001000000081900000114000000000000
bytes 0 236 0600a0000000000004000000040000000100000010000000

# Entry 65, at byte 260: the texture 2, and CopyTexImage2D 267: its level 0 is RGBA, the 2 by 2 pixels from (-1, 0) on. What is outside the framebuffer is zero.
bytes 0 260 0200c02002000000
bytes 0 268 0300e020e10d000002000000
bytes 0 280 09006021e10d00000000000008190000ffffffff00000000020000000200000000000000

# Entry 79, at byte 316: GenerateMipmap 270: level 1 of 1 by 1.
bytes 0 316 0200c021e10d0000

# Entry 81, at byte 324: the texture 1 again, and CopyTexSubImage2D 268 of a pixel to its level 0, from which it would be copied: INVALID_OPERATION.
bytes 0 324 0300e020e10d000001000000
bytes 0 336 09008021e10d000000000000000000000000000003000000030000000100000001000000
bytes 0 372 0300e0280100000000000000

# Entry 96, at byte 384: DeleteRenderbuffers 273: the depths are detached from the framebuffer, which is bound. With the colours alone it is complete.
bytes 0 384 0200202201000000
bytes 0 392 0200202800400000

# Entry 100, at byte 400: BindFramebuffer of the framebuffer 0, DeleteTextures 264 of 1, and a new texture of the name 1 with an image: what was attached to the framebuffer 1 is dead, and the new texture does not bring it back.
bytes 0 400 03008022408d000000000000
bytes 0 412 0200002101000000
bytes 0 420 0200c02001000000
bytes 0 428 0300e020e10d000001000000
bytes 0 440 0d002021e10d00000000000008190000040000000400000000000000081900000114000000000000000000000000000000000000

# Entry 123, at byte 492: a Clear of the framebuffer 1 is INVALID_FRAMEBUFFER_OPERATION.
bytes 0 492 03008022408d000001000000
bytes 0 504 0200202800400000
bytes 0 512 0300e0280100000000000000

# Entry 131, at byte 524: DeleteFramebuffers 277. The framebuffer 0 is bound, and a read has no further line `pixels`: all zero.
bytes 0 524 0200a02201000000
bytes 0 532 0800802800000000000000000100000001000000081900000114000000000000

put 141

# It prints, with status 0:
#   reply 9 error INVALID_FRAMEBUFFER_OPERATION
#   reply 13 bytes 8:4080bfff4080bf00
#   reply 14 bytes 4:4080bf00
#   reply 21 error INVALID_OPERATION
#   reply 31 error INVALID_FRAMEBUFFER_OPERATION
#   reply 33 bytes 4:00000000
#   driver 0 gen_texture -> 1
#   driver 1 bind_texture 0x0DE1 1
#   driver 2 tex_image 0x0DE1 0 0x1908 0x1401 4 4 none
#   driver 3 gen_renderbuffer -> 1
#   driver 4 bind_renderbuffer 1
#   driver 5 renderbuffer_storage 0x81A5 4 4
#   driver 6 gen_framebuffer -> 1
#   driver 7 bind_framebuffer 1
#   driver 8 framebuffer_texture 0x8CE0 0x0DE1 1
#   driver 9 framebuffer_renderbuffer 0x8D00 1
#   driver 10 zero_level 1 0x0DE1 0 0 0 4 4
#   driver 11 zero_renderbuffer 1
#   driver 12 clear 16384
#   driver 13 read_pixels 1 2 2 1 -> 8:4080bfff4080bf00
#   driver 14 gen_texture -> 2
#   driver 15 bind_texture 0x0DE1 2
#   driver 16 copy_tex_image 0x0DE1 0 0x1908 -1 0 2 2
#   driver 17 generate_mipmap 0x0DE1
#   driver 18 bind_texture 0x0DE1 1
#   driver 19 delete_renderbuffer 1
#   driver 20 clear 16384
#   driver 21 bind_framebuffer 0
#   driver 22 delete_texture 1
#   driver 23 gen_texture -> 3
#   driver 24 bind_texture 0x0DE1 3
#   driver 25 tex_image 0x0DE1 0 0x1908 0x1401 4 4 none
#   driver 26 bind_framebuffer 1
#   driver 27 delete_framebuffer 1
#   driver 28 read_pixels 0 0 1 1 -> 4:00000000
#   end ok
