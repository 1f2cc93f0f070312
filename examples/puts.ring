# A ring that goes round: the client publishes put several times, and writes new commands over those that were read.
#
# Each put is taken when the service is idle: it has executed all commands up to the put before.

# The ring has 4 entries, which are 16 bytes. So put is 0 to 3, and the entry behind entry 3 is entry 0.
ring 4

# Entry 0: GenBuffers 257 for the name 1. Its header is copy 0, and its word is copy 1.
bytes 0 0 0200202001000000
put 2

# Entry 2, at byte 8: GenBuffers for the name 2, which ends at the ring's end. Copies 2 and 3. Behind it get is 0.
bytes 0 8 0200202002000000
put 0

# Entry 0 again, written before copy 4: GenBuffers for the name 3. Numbers of copies go on through all puts.
at 4 0 0 0200202003000000
put 2

# Entry 2 again, written before copy 6: a Noop of three entries. Only two are there before the ring's end, whatever put is.
at 6 0 8 03000000
put 1

# This put is never taken: the run stopped.
put 2

# It prints, with status 6:
#   driver 0 gen_buffer -> 1
#   driver 1 gen_buffer -> 2
#   driver 2 gen_buffer -> 3
#   stop OutOfBounds 2
