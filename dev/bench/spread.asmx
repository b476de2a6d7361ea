# The same as collide.asmx with other registers.
.frames 16
.cpus 1
.page 0x400000
    li r2 127
    li r10 0x4000
loop:
    addi r5 r5 1
    and r5 r5 r2
    bne r5 r3 loop
    addi r4 r4 1
    and r4 r4 r2
    bne r4 r3 loop
    addi r6 r6 1
    and r6 r6 r2
    j loop
