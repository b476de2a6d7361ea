# A monitor with a timer and services that loses none: each request is counted by the child that makes it, and checked.
#
#     ./pip asm < examples/timer_and_services.s > timer.img
#     ./pip run 1000 1 < timer.img
#
# A trap of a child enters the root unmasked. So a line can be taken before the root's handler has run its first
# instruction, and r0 to r3 would be lost. Look at `switch 1 1 32` (such a line: the root itself was interrupted), first
# at step 480, and at `call 8 switch 1 1 63` after it: the root goes on with what was saved, and the request is served
# (`out`). A monitor that gives the next child its turn at each line loses that request.
#
# Other children break it, and that is left so (any_child.may). `trap 63` enters the root by the block in which it is
# saved (`park 1 14`); a request with a wrong number stops it (`out 0x0000dead`), and so does a child that threw its
# handler away (`out 0x00000010`). every/guarded.asmx holds against all three.
.frames 128
.cpus 1
.line 0 430 50

# ---- The root. r10 is 0 throughout, r12 the size of a page.
.page 0x400000
start:
# vcli: no line is taken before the first child runs. Nor is one before this: vector 32 has no handler yet.
sys 10
li r12 4096
li r11 <children
lih r11 >children
make_next:
ldw r6 r11 0
jal r14 make_child
ldw r11 r11 4
li r7 <children
lih r7 >children
bne r11 r7 make_next
# Vector 32 gets its handler last. A line that came before stays pending, whenever it came, and is taken as soon as a
# child runs. The entry, at 0xfffff080, is the address of the block, 0xfffff400.
li r7 0xf400
lih r7 0xffff
stw r7 r7 -896
li r15 <turn
lih r15 >turn
beq r10 r10 next_turn

# ---- Vector 32. A line has r3 = 0 and has masked the root; a child that forges one leaves another word there: its
# address by a trap, and 1, as the block has it, by a yield. r13 is where the pc stands in the root's block for 63,
# r15 the address of `turn`.
tick:
bne r3 r10 forged
# Was the root interrupted, and not a child? Then its context is in its block for 63, and it goes on there: it can only
# have been before the vcli of `service` or `forged`, and both begin with that.
ldw r7 r13 0
beq r7 r10 next_turn
li r1 1
li r2 63
li r3 256
sys 8
beq r10 r10 refused

# A forged line ends the child's turn.
forged:
sys 10
stw r10 r13 0

# ---- The next child has its turn. The root's mask goes off by the yield.
next_turn:
ldw r7 r15 0
ldw r8 r7 4
stw r8 r15 0
ldw r1 r7 0
li r2 63
li r3 256
sys 8
# A call was refused, or a request is missing: r0 is shown, and the root stays here.
refused:
out r0
stopped:
beq r10 r10 stopped

# ---- Vector 70, the service: r3 is the child. vcli comes first; from then on no line is taken, and nothing that was
# saved of the root is waited for.
service:
sys 10
stw r10 r13 0
# r7 is the child's data, r8 its handler table as the root has it. There, in the block of 63, stands what it was: r1 is
# the number of its request, and r0 becomes the answer.
ldw r7 r15 0
find:
ldw r8 r7 0
beq r8 r3 found
ldw r7 r7 4
beq r10 r10 find
found:
li r8 0x8000
add r8 r8 r3
ldw r4 r8 0x408
ldw r5 r7 8
addi r5 r5 1
li r0 0xdead
bne r4 r5 refused
stw r5 r7 8
stw r4 r8 0x404
out r4
# The child continues after its trap.
mov r1 r3
li r2 63
li r3 256
sys 8
beq r10 r10 refused

# ---- make_child: r6 is the first of ten pages of the root, r14 where to go on.
#
#     r6           the descriptor, the MMU directory, two shadow directories, the first list page
#     r6 + 0x5000  three pages for the tables of the directory index 1023
#     r6 + 0x8000  the child's handler table with its block, at 0xfffff000 of the child
#     r6 + 0x9000  its copy of the program, at 0xffc00000
make_child:
# createPartition
mov r1 r6
add r2 r1 r12
add r3 r2 r12
add r4 r3 r12
add r5 r4 r12
sys 0
bne r0 r10 refused
# prepare takes a chain: the first word of each page is the address of the next.
addi r3 r6 0x5000
add r7 r3 r12
stw r7 r3 0
add r8 r7 r12
stw r8 r7 0
mov r1 r6
li r2 0xf000
lih r2 0xffff
sys 3
bne r0 r10 refused
# The handler table: the block of 63, in which the child is saved each time, is at 0xfffff400, and begins at 0xffc00000.
add r9 r8 r12
li r7 0xf400
lih r7 0xffff
stw r7 r9 0xfc
li r7 0
lih r7 0xffc0
stw r7 r9 0x400
# copy: the words from `program` on, word by word.
add r8 r9 r12
li r1 <program
lih r1 >program
li r2 <program_end
lih r2 >program_end
mov r3 r8
copy:
ldw r4 r1 0
stw r4 r3 0
addi r1 r1 4
addi r3 r3 4
bne r1 r2 copy
# addVAddr: the handler table to read and write, the program to read and execute.
mov r1 r9
mov r2 r6
li r3 0xf000
lih r3 0xffff
li r4 3
sys 5
bne r0 r10 refused
mov r1 r8
mov r2 r6
mov r3 r7
li r4 5
sys 5
bne r0 r10 refused
jr r14

# ---- The root's data: whose turn it is, and the children: descriptor, next child, how many requests were served.
.page 0x401000
turn:
.word children
children:
.word 0x410000
.word second
.word 0
second:
.word 0x420000
.word children
.word 0

# ---- The children's program, of which each gets a copy. It asks for a service each sixteen rounds, with the number of
# the request in r1, and the answer has to be that number. r6 is the number.
.page 0x402000
program:
ask:
li r8 16
wait:
addi r8 r8 -1
bne r8 r10 wait
addi r6 r6 1
mov r1 r6
int 70
beq r0 r6 ask
# A request wasn't answered: a page fault, which nobody takes.
ldw r0 r10 0
program_end:

# ---- The root's handler table: the vectors 32, 63 and 70. Their blocks begin at the words 256, 273 and 290. That of 32
# has 1 for r3, and those of 32 and 70 have the address of the block of 63 in r13, and that of `turn` in r15.
# The entry of vector 32 is 0 until the children are made.
.page 0xfffff000
.zero 63
.word 0xfffff444
.zero 6
.word 0xfffff488
.zero 185
.word tick
.zero 3
.word 1
.zero 9
.word 0xfffff444
.word 0
.word turn
.zero 17
.word service
.zero 13
.word 0xfffff444
.word 0
.word turn
