# The machine of the pictures in docs/: the root makes a child and lends it pages; the child makes a child of its own;
# then the root makes a second child.
.frames 64
.cpus 1
.page 0x00400000
# r10 is the size of a page, r11 the child's address, r13 is 0.
li r10 4096
li r11 0x1000
lih r11 0x40
# createPartition of the five pages from r11 on.
mov r1 r11
add r2 r1 r10
add r3 r2 r10
add r4 r3 r10
add r5 r4 r10
sys 0
# prepare: the three pages from 0x406000 on, for the last directory index.
mov r1 r11
li r2 0xf000
lih r2 0xffff
li r3 0x6000
lih r3 0x40
add r6 r3 r10
stw r6 r3 0
add r7 r6 r10
stw r7 r6 0
sys 3
# The handler table at 0x409000 is lent to read, the code at 0x40f000 to read and execute.
li r1 0x9000
lih r1 0x40
mov r2 r11
li r3 0xf000
lih r3 0xffff
li r4 1
sys 5
li r1 0xf000
lih r1 0x40
mov r2 r11
li r3 0xf000
lih r3 0xffc0
li r4 5
sys 5
# Five pages from 0x40a000 on at 0xffc0a000, and five more from 0x410000 on at 0xffc10000, to read and write.
li r6 0xa000
lih r6 0x40
li r7 0xa000
lih r7 0xffc0
li r12 5
jal r14 lend
li r6 0
lih r6 0x41
li r7 0
lih r7 0xffc1
li r12 5
jal r14 lend
# yield with vector 64, without a save.
mov r1 r11
li r2 64
li r3 256
sys 8
# lend: r12 pages from r6 on, at r7 on.
lend:
mov r1 r6
mov r2 r11
mov r3 r7
li r4 3
sys 5
add r6 r6 r10
add r7 r7 r10
addi r12 r12 -1
bne r12 r13 lend
jr r14
# The handler of vector 65: the second child, out of the pages from 0x41c000 on, with a table for 0x10000000.
back:
li r10 4096
li r11 0xc000
lih r11 0x41
mov r1 r11
add r2 r1 r10
add r3 r2 r10
add r4 r3 r10
add r5 r4 r10
sys 0
mov r1 r11
li r2 0
lih r2 0x1000
li r3 0x1000
lih r3 0x42
add r6 r3 r10
stw r6 r3 0
add r7 r6 r10
stw r7 r6 0
sys 3
li r6 0x4000
lih r6 0x42
li r7 0
lih r7 0x1000
li r12 2
jal r14 lend
rest:
jal r14 rest
# The root's handler table: vector 65.
.page 0xfffff000
.zero 65
.word 0xfffff400
.zero 190
.word back
# The child's handler table: vector 64.
.page 0x00409000
.zero 64
.word 0xfffff400
.zero 191
.word 0xffc0f000
# The child: a child of its own, with a table for 0x20000000 and one page there, to read.
.page 0x0040f000
li r10 4096
li r11 0xa000
lih r11 0xffc0
mov r1 r11
add r2 r1 r10
add r3 r2 r10
add r4 r3 r10
add r5 r4 r10
sys 0
mov r1 r11
li r2 0
lih r2 0x2000
li r3 0
lih r3 0xffc1
add r6 r3 r10
stw r6 r3 0
add r7 r6 r10
stw r7 r6 0
sys 3
li r1 0x3000
lih r1 0xffc1
mov r2 r11
li r3 0
lih r3 0x2000
li r4 1
sys 5
li r1 0
li r2 65
li r3 256
sys 8
