# GetError: each gives the recorded code with the least number, and clears it.
ring 64

# The replies go to region 2: 4 bytes with the number of a reply's words, and then the words. A reply of GetError has one word.
region 2 24

# Entry 0: BufferData 259 for ARRAY_BUFFER while nothing is bound: INVALID_OPERATION 0x0502 is recorded.
bytes 0 0 080060209288000010000000e488000000000000000000000000000000000000

# Entry 8, at byte 32: BindBuffer 258 of a target 0x1234 that there is not: INVALID_ENUM 0x0500 is recorded.
bytes 0 32 030040203412000001000000

# Entry 11, at byte 44: GetError 327, whose words say that the reply goes to region 2, from byte 0 on.
bytes 0 44 0300e0280200000000000000

# Entry 14, at byte 56: GetError, with the reply from byte 8 on.
bytes 0 56 0300e0280200000008000000

# Entry 17, at byte 68: GetError, with the reply from byte 16 on: nothing is recorded any more.
bytes 0 68 0300e0280200000010000000

# Entry 20, at byte 80: GetError, with the reply from byte 17 on. Its eight bytes would leave the region, so the command is malformed.
bytes 0 80 0300e0280200000011000000
put 23

# It prints, with status 6. The replies are numbered among all commands from 0; the first two commands reply nothing.
#   reply 2 error INVALID_ENUM
#   reply 3 error INVALID_OPERATION
#   reply 4 error NO_ERROR
#   stop OutOfBounds 20
