# A root that makes and ends a child in a loop.
.frames 32
.cpus 1
.page 0x400000
li r6 0x1000
lih r6 0x40
li r2 0x2000
lih r2 0x40
li r3 0x3000
lih r3 0x40
li r4 0x4000
lih r4 0x40
li r5 0x5000
lih r5 0x40
again:
mov r1 r6
sys 0
mov r1 r6
sys 1
beq r0 r0 again
