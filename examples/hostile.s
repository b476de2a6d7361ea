# A hostile child: it forges an interrupt and a fault, calls what it may not, and gives its own handler table away.
#
#     ./pip asm < examples/hostile.s > hostile.img
#     ./pip run 400 1 < hostile.img
#
# The root shows what it was entered for: 1 for the timer's line, and 2 for a forged line or fault, which it tells by
# r3: a yield leaves there what the root's own block has. Look at the lines `call 8 switch 28 1 32` (forged, then `out`
# of 2) and `switch 28 1 32` (a line, then 1); at the child's refused calls (`reply 5`, `reply 6`, `reply 1`); and at
# the end: the child can't be saved any more (`call 8 reply 18`), nor has it a handler (`call 8 reply 16`), but the root
# ends it, and has all its pages back, cleared.
.frames 64
.cpus 1
.line 0 100 60

# ---- The root. r10 is 0 throughout, r12 the size of a page.
.page 0x400000
# vcli: no line is taken while the child is made. Nor is one before this: vector 32 has no handler yet.
sys 10
li r12 4096
# createPartition of the five pages from 0x410000 on.
li r6 0
lih r6 0x41
mov r1 r6
add r2 r1 r12
add r3 r2 r12
add r4 r3 r12
add r5 r4 r12
sys 0
bne r0 r10 refused
# prepare, with the chain 0x415000, 0x416000, 0x417000
addi r3 r6 0x5000
add r7 r3 r12
stw r7 r3 0
add r8 r7 r12
stw r8 r7 0
mov r1 r6
li r2 0xf000
lih r2 0xffff
sys 3
bne r0 r10 refused
# addVAddr: the handler table at 0xfffff000 to read and write, so that the child can do with it what it likes;
# the program at 0xffc00000 to read and execute; and four pages from 0xffc01000 on to read and write.
add r9 r8 r12
mov r1 r9
mov r2 r6
li r3 0xf000
lih r3 0xffff
li r4 3
sys 5
bne r0 r10 refused
add r9 r9 r12
mov r1 r9
mov r2 r6
li r3 0
lih r3 0xffc0
li r4 5
sys 5
bne r0 r10 refused
li r8 4
lend:
add r9 r9 r12
add r3 r3 r12
mov r1 r9
mov r2 r6
li r4 3
sys 5
bne r0 r10 refused
addi r8 r8 -1
bne r8 r10 lend
# Vector 32 gets its handler last. A line that came before stays pending, whenever it came, and is taken as soon as the
# child runs. The entry, at 0xfffff080, is the address of the block, 0xfffff444.
li r7 0xf444
lih r7 0xffff
stw r7 r7 -964
# yield(child, vector 64, nothing is saved)
mov r1 r6
li r2 64
li r3 256
sys 8
# A call was refused: its status is shown, and the root stays here, masked.
refused:
out r0
stopped:
beq r10 r10 stopped

# ---- The handler of vector 32. A line is taken with r3 = 0 and masks the root; a trap of the child has its address in
# r3; and a child that yields with vector 32 masks nothing, and leaves 1 in r3, as the block has it. r4 to r15 are 0.
line:
sys 10
bne r3 r10 forged
li r6 1
out r6
# yield(child, vector 63, nothing is saved): the child that was interrupted goes on; there is only one.
go_on:
li r1 0
lih r1 0x41
li r2 63
li r3 256
sys 8
beq r10 r10 refused
forged:
li r6 2
out r6
beq r10 r10 go_on

# ---- The handler of vector 14. A fault has the child's address in r3. A yield with vector 14 leaves 0 there, as the
# block has it: then there was no fault, and r1 is no address.
faulted:
mov r6 r1
# vcli, like each call, puts its reply into r0 and r1: the address was saved before.
sys 10
beq r3 r10 forged
out r6
beq r10 r10 go_on

# ---- The handler of vector 65: the child says that it is done. Can it be entered again? No: it has no handler table.
done:
sys 10
li r6 0
lih r6 0x41
mov r1 r6
li r2 64
li r3 256
sys 8
out r0
# mappedInChild(0x418000): its handler table is still the root's page, and with this child.
li r7 0x8000
lih r7 0x41
mov r1 r7
sys 7
# deletePartition ends the child, and with it the one that was made of the handler table.
mov r1 r6
sys 1
bne r0 r10 refused
# The page of the handler table is back, and zero: it was configuration.
ldw r8 r7 0x400
out r8
beq r10 r10 stopped

# ---- The child's handler table: vector 64 begins at 0xffc00000, and in the block of 63 the child is saved.
.page 0x418000
.zero 63
.word 0xfffff444
.word 0xfffff400
.zero 191
.word 0xffc00000

# ---- The child.
.page 0x419000
# yield(parent, vector 32, saved in 63): a forged interrupt.
li r1 0
li r2 32
li r3 63
sys 8
# yield(parent, vector 14, saved in 63): a forged fault. r1 is 0 from the yield before.
li r2 14
sys 8
# deletePartition(0x410000): that is what the root calls it. It has no child of this address itself (5).
li r1 0
lih r1 0x41
sys 1
# createPartition out of the root's pages from 0x420000 on, of which it has none (6).
li r1 0
lih r1 0x42
li r12 4096
add r2 r1 r12
add r3 r2 r12
add r4 r3 r12
add r5 r4 r12
sys 0
# A call that there isn't (1).
sys 99
# vcli: its mask has no effect, and the timer's line is taken all the same while it waits.
sys 10
li r8 30
wait:
addi r8 r8 -1
bne r8 r10 wait
# createPartition, with its handler table as the descriptor. From now on the page is hidden from it, and from the root.
li r1 0xf000
lih r1 0xffff
li r2 0x1000
lih r2 0xffc0
add r3 r2 r12
add r4 r3 r12
add r5 r4 r12
sys 0
# yield(parent, vector 65, saved in 63): refused, for its block went with its handler table (18). So it goes unsaved.
li r1 0
li r2 65
li r3 63
sys 8
li r3 256
sys 8

# ---- The root's handler table: the vectors 14, 32 and 65. Their blocks, each a pc and 16 registers, begin at the words
# 256, 273 and 290; that of 32 has 1 for r3. The entry of vector 32 is 0 until the child is made.
.page 0xfffff000
.zero 14
.word 0xfffff400
.zero 50
.word 0xfffff488
.zero 190
.word faulted
.zero 16
.word line
.zero 3
.word 1
.zero 12
.word done
