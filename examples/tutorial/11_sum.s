# The sum of the numbers from 4 down to 1.
.frames 64
.cpus 1
.page 0x00400000
# All registers are 0 at the start. r10 stays 0.
li r1 4
next:
add r2 r2 r1
out r2
addi r1 r1 -1
bne r1 r10 next
# Trap 64 goes to a partition above. No partition is above the root: the processor parks.
int 64
