# A monitor that restarts a child that faulted. Each life of the child shows four numbers and then a fault.
#
#     ./pip asm < examples/restart.s > restart.img
#     ./pip run 600 1 < restart.img
#
# Look at the lines after each `switch 28 1 14`, the fault: the root shows the address (0x20000000), ends the child
# (`call 1 reply 0`) and makes it anew of the same pages (`call 0 reply 0`). The child counts in a page that is only
# lent to it. Such a page keeps its words, so the count goes on where it was: 1 to 4, 5 to 8, 9 to 12. Then the root
# ends the child for good and parks.
#
# Another child parks it at once (any_child.may): it yields with vector 14, and the root believes a fault of child 0.
.frames 64
.cpus 1

# ---- The root. r10 is 0 throughout, r12 the size of a page.
.page 0x400000
start:
li r12 4096
make_child:
# createPartition of the five pages from 0x410000 on.
li r6 0
lih r6 0x41
mov r1 r6
add r2 r1 r12
add r3 r2 r12
add r4 r3 r12
add r5 r4 r12
sys 0
bne r0 r10 refused
# prepare, with the chain 0x415000, 0x416000, 0x417000. It is written anew each time: configuration comes back zero.
addi r3 r6 0x5000
add r7 r3 r12
stw r7 r3 0
add r8 r7 r12
stw r8 r7 0
mov r1 r6
li r2 0xf000
lih r2 0xffff
sys 3
bne r0 r10 refused
# addVAddr: the handler table at 0xfffff000 to read; the program at 0xffc00000 to read and execute; the page of the
# count at 0xffc01000 to read and write.
add r9 r8 r12
mov r1 r9
mov r2 r6
li r3 0xf000
lih r3 0xffff
li r4 1
sys 5
bne r0 r10 refused
add r9 r9 r12
mov r1 r9
mov r2 r6
li r3 0
lih r3 0xffc0
li r4 5
sys 5
bne r0 r10 refused
add r9 r9 r12
mov r1 r9
mov r2 r6
add r3 r3 r12
li r4 3
sys 5
bne r0 r10 refused
# yield(child, vector 64, nothing is saved)
mov r1 r6
li r2 64
li r3 256
sys 8
refused:
out r0
int 64

# ---- The handler of vector 14: r1 is the address, r2 says which access and which fault (1: a load, unmapped), r3 is
# the child. The others are those of the block: r15 the address of `lives`, r4 to r14 are 0.
faulted:
out r1
# deletePartition(child)
mov r1 r3
sys 1
bne r0 r10 refused
ldw r6 r15 0
addi r6 r6 -1
stw r6 r15 0
bne r6 r10 start
# No life is left. A trap of the root has nobody to go to, so the processor parks.
int 64

.page 0x401000
lives:
.word 3

# ---- The child's handler table: vector 64 begins at 0xffc00000. There is no block for 63, in which the child would be
# saved as it faults: its context is lost, and the root doesn't want it.
.page 0x418000
.zero 64
.word 0xfffff400
.zero 191
.word 0xffc00000

# ---- The child's program: it adds 1 to the count at 0xffc01000, shows it, and at each fourth number loads from an
# address where it has no page.
.page 0x419000
li r6 0x1000
lih r6 0xffc0
li r7 0
lih r7 0x2000
count:
ldw r8 r6 0
addi r8 r8 1
stw r8 r6 0
out r8
andi r9 r8 3
bne r9 r10 count
ldw r9 r7 0
# Nobody comes here: the child that faulted doesn't go on.
out r9

# ---- The root's handler table: vector 14. Its block, a pc and 16 registers, begins at word 256.
.page 0xfffff000
.zero 14
.word 0xfffff400
.zero 241
.word faulted
.zero 15
.word lives
