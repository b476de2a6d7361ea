# A root that loads and stores.
.frames 16
.cpus 1
.page 0x400000
li r1 0x1000
lih r1 0x40
again:
ldw r2 r1 0
stw r2 r1 4
ldw r3 r1 8
stw r3 r1 12
ldb r4 r1 16
stb r4 r1 17
ldw r5 r1 20
beq r0 r0 again
