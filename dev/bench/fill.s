# It stores a word in one place after the other. At first it computes, so that the words with which those of the states
# are compared are those of the beginning.
.frames 4096
.cpus 1
.page 0x400000
li r1 0x1000
lih r1 0x40
li r3 300
wait:
addi r3 r3 -1
bne r3 r0 wait
li r5 4
fill:
stw r1 r1 0
add r1 r1 r5
beq r0 r0 fill
