# The root makes a child and lets it run. The child faults, and the root shows where.
.frames 64
.cpus 1

# The root. r10 stays 0, r12 is the size of a page.
.page 0x00400000
li r12 4096
# createPartition of the pages 0x401000 to 0x405000. The arguments of a call are r1 to r5.
li r1 0x1000
lih r1 0x40
mov r6 r1
add r2 r1 r12
add r3 r2 r12
add r4 r3 r12
add r5 r4 r12
sys 0
# prepare, for the child's last pages: the chain 0x406000, 0x407000, 0x408000.
add r3 r5 r12
add r7 r3 r12
stw r7 r3 0
add r8 r7 r12
stw r8 r7 0
mov r1 r6
li r2 0xf000
lih r2 0xffff
sys 3
# addVAddr: the page at 0x409000, at 0xfffff000 of the child, to read and write (1 + 2).
add r1 r8 r12
mov r2 r6
li r3 0xf000
lih r3 0xffff
li r4 3
sys 5
# The page at 0x40a000, at 0xffc0a000 of the child, to read and execute (1 + 4).
li r1 0xa000
lih r1 0x40
li r3 0xa000
lih r3 0xffc0
li r4 5
sys 5
# yield(child, vector 64, nothing is saved)
mov r1 r6
li r2 64
li r3 256
sys 8

# The root's handler of vector 14: r1 is the address, r2 which access and fault, r3 the child.
faulted:
out r1
out r2
out r3
int 64

# The child's handler table: 63, in which it is saved, and 64, by which it begins: a pc, r0, r1 and r2.
.page 0x00409000
.zero 63
.word 0xfffff444
.word 0xfffff400
.zero 191
.word 0xffc0a000
.word 0
.word 5
.word 6

# The child: it adds what it was given, shows it, and loads from where it has no page.
.page 0x0040a000
add r4 r1 r2
out r4
li r5 0
lih r5 0x2000
ldw r4 r5 0

# The root's handler table: vector 14.
.page 0xfffff000
.zero 14
.word 0xfffff400
.zero 241
.word faulted
