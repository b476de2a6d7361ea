# Two guests on two processors that never meet: each takes its own faults and traps, and the root runs no more.
#
#     ./pip asm < examples/two_guests.s > two_guests.img
#     ./pip run 3000 1 < two_guests.img
#     ./lab apart 1000 2100 1 < two_guests.img
#
# A guest is a partition, its top, with a worker below it. The worker counts to 64, over and over; with every eighth
# number it asks its top by `int 70` to show it, and then loads an address at which it has no page. Both come to the
# top, which lets it go on. So from the line with which a guest begins on it has the lines that it would have alone:
# two_guests.apart says so of all orders of turns, with any lines. two_guests.every goes through the first turns in all
# orders: no line is taken before the root has made all its children.
#
# Interrupt line 0 only serves to bring the root to processor 1. Meanwhile the keeper runs on processor 0, a child of
# the root that asks again and again to give its processor away. Before any guest runs the root takes its handler of the
# line away, and before the second runs the handler of all yields: a guest could use them. So whatever the first does,
# the second begins, and has the lines that it has alone: the check `hostile-guests` tries 480 programs.
.frames 256
.cpus 2
.line 0 100 100

# ---- The root's program. r10 is never written by any of the programs, so that it is 0.
.page 0x400000
# The second guest gets copies of the programs of the first.
li r6 <top
lih r6 >top
li r7 0x9000
lih r7 0x44
jal r14 copy
li r6 <worker
lih r6 >worker
li r7 0x3000
lih r7 0x45
jal r14 copy
# Each guest begins with another number.
li r6 0
lih r6 0x41
li r11 10
li r12 0
lih r12 0x1000
jal r14 make_child
li r6 0
lih r6 0x44
li r11 10
li r12 0
lih r12 0x2000
jal r14 make_child
# The keeper gets no further pages.
li r6 0
lih r6 0x47
li r11 0
jal r14 make_child
# From now on the line is handled at `give`: before, no guest would be there.
li r6 0xf000
lih r6 0xffff
li r7 0xf400
lih r7 0xffff
stw r7 r6 128

# ---- The handler of the line, and where the root goes on here: the keeper is let run.
give:
li r1 0
lih r1 0x47
li r2 63
li r3 256
sys 8
# That is refused with status 14 where it runs: the line came to the other processor.
li r2 14
bne r0 r2 root_refused
# The line has no handler any more, and stays pending. Vector 65 has one now, and the keeper can yield by it.
li r6 0xf000
lih r6 0xffff
stw r10 r6 128
li r7 0xf444
lih r7 0xffff
stw r7 r6 260
# The first guest gets this processor.
li r1 0
lih r1 0x41
li r2 63
li r3 256
sys 8
beq r10 r10 root_refused

# ---- The handler of vector 65: the second guest gets the processor of the child that yields, which is the keeper's, or
# that of a first guest that gives its own away. First this handler goes, too, since a guest is to be let run once.
begin:
li r6 0xf000
lih r6 0xffff
stw r10 r6 260
li r1 0
lih r1 0x44
li r2 63
li r3 256
sys 8
root_refused:
out r0
root_stopped:
beq r10 r10 root_stopped

# ---- copy: the words from r6 on, with the first 0, are copied to r7 on; r14 is where to go on.
copy:
ldw r8 r6 0
stw r8 r7 0
addi r6 r6 4
addi r7 r7 4
bne r8 r10 copy
jr r14

# ---- The program of a top, at 0xffffe000 there. The root runs `make_child` of it, too.
#
# r1 is the number to begin with, which the worker gets.
.page 0x419000
top:
# The top's block for its worker's faults and traps begins at `serve`.
li r8 <serve
andi r8 r8 0xfff
li r9 0xe000
lih r9 0xffff
add r8 r8 r9
li r7 0xf000
lih r7 0xffff
stw r8 r7 0x480
# It is that of the division by 0, of words that are no instruction, of all faults, and of vector 70.
addi r8 r7 0x480
stw r8 r7 0
stw r8 r7 24
stw r8 r7 56
stw r8 r7 68
stw r8 r7 280
li r6 0
lih r6 0xffc0
li r11 0
mov r12 r1
jal r14 make_child
# yield(worker, vector 63, nothing is saved): the worker begins, or goes on.
go_on:
li r1 0
lih r1 0xffc0
li r2 63
li r3 256
sys 8
beq r10 r10 refused

# ---- A fault or a trap of the worker, with its vector in r0. The worker was saved in its block, here at 0xffc08400.
serve:
li r7 0x8000
lih r7 0xffc0
li r9 70
bne r0 r9 faulted
# It asks to show the number in its r1.
ldw r8 r7 0x408
out r8
beq r10 r10 go_on
# The vector is shown, and the instruction is left out: pc goes on by 4.
faulted:
out r0
ldw r8 r7 0x400
addi r8 r8 4
stw r8 r7 0x400
beq r10 r10 go_on

# ---- A call was refused: its status is shown, and the partition stays here.
refused:
out r0
stopped:
beq r10 r10 stopped

# ---- make_child: r6 is the first of ten pages, r11 how many pages after them the child gets, r12 the number in its r1,
# and r14 where to go on.
#
#     r6           the descriptor, the MMU directory, two shadow directories and the first list page
#     r6 + 0x5000  three pages for the tables of the child's last 4 MiB, from 0xffc00000 on
#     r6 + 0x8000  the child's handler table, and the block in which it begins and is saved
#     r6 + 0x9000  its program, at 0xffffe000 there
make_child:
mov r1 r6
addi r2 r1 4096
addi r3 r2 4096
addi r4 r3 4096
addi r5 r4 4096
sys 0
bne r0 r10 refused
# prepare(child, address, first page) takes a chain: the first word of each page is the address of the next one.
addi r3 r6 0x5000
addi r8 r3 4096
addi r9 r8 4096
stw r8 r3 0
stw r9 r8 0
mov r1 r6
li r2 0xf000
lih r2 0xffff
sys 3
bne r0 r10 refused
# The block of the vector 63 has the pc and the number with which the child begins.
addi r7 r9 4096
li r8 0xf400
lih r8 0xffff
stw r8 r7 252
li r8 0xe000
lih r8 0xffff
stw r8 r7 0x400
stw r12 r7 0x408
# addVAddr(page, child, address in the child, rights): the handler table, the program, and the other pages.
mov r1 r7
mov r2 r6
li r3 0xf000
lih r3 0xffff
li r4 3
sys 5
bne r0 r10 refused
addi r1 r7 4096
mov r2 r6
li r3 0xe000
lih r3 0xffff
li r4 5
sys 5
bne r0 r10 refused
addi r7 r7 0x2000
li r8 0
lih r8 0xffc0
lend:
beq r11 r10 made
mov r1 r7
mov r2 r6
mov r3 r8
li r4 7
sys 5
bne r0 r10 refused
addi r7 r7 4096
addi r8 r8 4096
addi r11 r11 -1
beq r10 r10 lend
made:
jr r14

# ---- The program of a worker, in the last of the pages that its top was lent.
.page 0x423000
worker:
addi r1 r1 1
andi r2 r1 7
bne r2 r10 worker
int 70
ldw r3 r10 0
andi r2 r1 63
bne r2 r10 worker
addi r1 r1 -64
beq r10 r10 worker

# ---- The keeper's program: it yields to the root by vector 65, again and again, until that is accepted.
.page 0x479000
keeper:
li r4 32
pause:
addi r4 r4 -1
bne r4 r10 pause
li r1 0
li r2 65
li r3 256
sys 8
beq r10 r10 keeper

# ---- The root's handler table, its last page, and the blocks of the line and of vector 65.
.page 0xfffff000
.zero 256
.word give
.zero 16
.word begin
