# Shaders and a program: they are compiled, linked and used, and uniforms are set.
#
# Sources are not compiled here: the script says what a compiler and a linker answer, in the order in which they are asked.

ring 128

# Both compilations go well. The second says something, which is its log: "ok".
compile ok -
compile ok 6f6b

# The link goes well. The program has an attribute and two uniforms, of which the second is an array of 2 elements:
# `colour` has the location 0, and the elements of `level[0]` have 1 and 2.
link ok -
attr position FLOAT_VEC3 0
uniform colour FLOAT_VEC4 1
uniform level[0] INT 2

# Region 1: replies at byte 0, the source "void main(){}" at 16, the floats 1, 0.5, 0 and 1 at 32, and the number 7 at 48.
region 1 64
bytes 1 16 766f6964206d61696e28297b7d
bytes 1 32 0000803f0000003f000000000000803f
bytes 1 48 07000000

# Entry 0: CreateShader 280 of the name 1, a VERTEX_SHADER 0x8B31. The client picks the name. The reply goes to region 1, byte 0.
bytes 0 0 0500002301000000318b00000100000000000000

# Entry 5, at byte 20: ShaderSource 281 of the shader 1: source 1, 13 bytes of region 1 from byte 16 on.
bytes 0 20 0600202301000000010000000d0000000100000010000000

# Entry 11, at byte 44: CompileShader 282 of the shader 1. The first line `compile` answers.
bytes 0 44 0200402301000000

# Entry 13, at byte 52: CreateShader of the name 2, a FRAGMENT_SHADER 0x8B30.
bytes 0 52 0500002302000000308b00000100000000000000

# Entry 18, at byte 72: ShaderSource of the shader 2, with the same 13 bytes.
bytes 0 72 0600202302000000010000000d0000000100000010000000

# Entry 24, at byte 96: CompileShader of the shader 2. The second line `compile` answers.
bytes 0 96 0200402302000000

# Entry 26, at byte 104: CreateProgram 284 of the name 3. Shaders and programs have their names in common.
bytes 0 104 04008023030000000100000000000000

# Entry 30, at byte 120: AttachShader 285 of the program 3 and the shader 1.
bytes 0 120 0300a0230300000001000000

# Entry 33, at byte 132: AttachShader of the program 3 and the shader 2.
bytes 0 132 0300a0230300000002000000

# Entry 36, at byte 144: LinkProgram 288 of the program 3. The line `link` answers, with its attribute and its uniforms.
bytes 0 144 0200002403000000

# Entry 38, at byte 152: UseProgram 290 of the program 3, which becomes current.
bytes 0 152 0200402403000000

# Entry 40, at byte 160: SetBucketSize 2: the bucket 0 gets 16 zero bytes.
bytes 0 160 030040000000000010000000

# Entry 43, at byte 172: SetBucketData 3 of the bucket 0 from byte 0 on: source 1, 16 bytes of region 1 from byte 32 on.
bytes 0 172 07006000000000000000000001000000100000000100000020000000

# Entry 50, at byte 200: Uniform 292 at the location 0, `colour`: kind 4, a vector of 4 floats, 1 element, not transposed.
# Its data is source 2, all 16 bytes of the bucket 0.
bytes 0 200 090080240000000004000000010000000000000002000000100000000000000000000000

# Entry 59, at byte 236: Uniform at the location 1, the first element of `level[0]`: kind 5, an integer, 1 element.
# Its data is source 1, 4 bytes of region 1 from byte 48 on.
bytes 0 236 090080240100000005000000010000000000000001000000040000000100000030000000

# Entry 68, at byte 272: Uniform at the location 3, which is behind the last element: INVALID_OPERATION.
bytes 0 272 090080240300000005000000010000000000000001000000040000000100000030000000

# Entry 77, at byte 308: DeleteShader 283 of the shader 1. The program has it attached, so it stays in use.
bytes 0 308 0200602301000000

# Entry 79, at byte 316: GetError 327, with the reply in region 1 from byte 0 on.
bytes 0 316 0300e0280100000000000000
put 82

# It prints, with status 0:
#   reply 0 word 1
#   reply 3 word 2
#   reply 6 word 3
#   reply 17 error INVALID_OPERATION
#   driver 0 create_shader 0x8B31 -> 1
#   driver 1 shader_source 1 13:766f6964206d61696e28297b7d
#   driver 2 compile_shader 1 -> ok
#   driver 3 create_shader 0x8B30 -> 2
#   driver 4 shader_source 2 13:766f6964206d61696e28297b7d
#   driver 5 compile_shader 2 -> ok
#   driver 6 create_program -> 3
#   driver 7 attach_shader 3 1
#   driver 8 attach_shader 3 2
#   driver 9 link_program 3 -> ok
#   driver 10 use_program 3
#   driver 11 uniform 0 4 1 16:0000803f0000003f000000000000803f
#   driver 12 uniform 1 5 1 4:07000000
#   driver 13 delete_shader 1
#   end ok
