# A root that computes.
.frames 16
.cpus 1
.page 0x400000
again:
addi r1 r1 1
add r2 r2 r1
xor r3 r2 r1
shli r4 r3 3
sub r5 r4 r2
and r6 r5 r3
sltu r7 r6 r5
beq r0 r0 again
