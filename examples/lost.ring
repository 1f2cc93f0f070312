# A driver that has no room once, and is lost later.
#
# The lines `oom` and `lost` say how the driver answers. They may stand anywhere, also before `ring`.

# A BufferData asks the driver for room. Of these questions, counted from 0, the first finds none.
oom 0

# The driver answers four calls, and is lost at the next one.
lost 4

ring 32

# The reply goes to region 2.
region 2 8

# Entry 0: BindBuffer 258 of ARRAY_BUFFER 0x8892 and the name 1. As the name is not in use, it makes two driver calls.
bytes 0 0 030040209288000001000000

# Entry 3, at byte 12: BufferData 259 for ARRAY_BUFFER, 4 bytes of zeros, STATIC_DRAW 0x88E4. There is no room: OUT_OF_MEMORY.
bytes 0 12 080060209288000004000000e488000000000000000000000000000000000000

# Entry 11, at byte 44: GetError 327, with the reply in region 2 from byte 0 on.
bytes 0 44 0300e0280200000000000000

# Entry 14, at byte 56: BufferData of 2 bytes. This is the second question, and there is room.
bytes 0 56 080060209288000002000000e488000000000000000000000000000000000000

# Entry 22, at byte 88: BindBuffer of ARRAY_BUFFER and the name 2, which asks for a new name. The driver is lost at this call.
bytes 0 88 030040209288000002000000

# Entry 25, at byte 100: GetError, which is never read.
bytes 0 100 0300e0280200000000000000
put 28

# It prints, with status 8. The call at which the driver was lost is not in the journal.
#   reply 2 error OUT_OF_MEMORY
#   driver 0 gen_buffer -> 1
#   driver 1 bind_buffer 0x8892 1
#   driver 2 buffer_data 0x8892 4:00000000 0x88E4 -> oom
#   driver 3 buffer_data 0x8892 2:0000 0x88E4
#   end driver lost
