# Two children on two processors, and one root. Each child asks the root twice to add 1 to a word, and asks again if it
# is refused. So the root shows 4 and nothing else, on every interleaving. It is a small retry.s, with counts that end.
#
#     tools/asmx examples/every/asked_again.asmx --image again.img
#     ./lab every 20000 < again.img
#
# Look at `call 8 reply 14`. The root runs on one processor at a time, so it never adds on both at once; a child that
# asks meanwhile on the other one is refused. The root is refused a turn for a child that runs, and takes the other.
# With ../any_child.may it shows 0 (`trap 66` twice): the root believes each child, also one that is done twice.
.equ FIRST 0x410000               # the first child: ten pages, of which the last two are its handler table and program
.equ SECOND 0x420000
.equ LAST 0xfffff000
.equ SEEN 0xffc00000              # where a child has its program
.equ TIMES 2
.frames 64
.cpus 2
.line 0 300 40

.page 0x400000
    sys 10
    la r6 FIRST
    jal r14 make_child
    la r6 SECOND
    jal r14 make_child
    la r7 LAST                    # vector 32 gets its handler last: a line that comes before stays pending
    la r8 LAST+0x400
    stw r8 r7 4*32
    la r8 LAST+0x444

line:                             # at the start, and by line 0; r7 is the handler table, r8 the block of vector 65
    la r1 FIRST                   # yield(child, 63, nothing is saved): refused if it runs on the other processor
    li r2 63
    li r3 256
    sys 8
    stw r10 r7 4*32               # it does, so this is the second processor: no line is taken any more,
    stw r8 r7 4*65                # and the children can ask. A line could have interrupted the root at `asked`
    j turn_of_second

asked:                            # vector 65; r15 is the address of `sum`
    ldw r1 r15 0
    addi r1 r1 1
    stw r1 r15 0
turn:
    la r1 FIRST
    li r2 63
    li r3 256
    sys 8
turn_of_second:                   # the root runs here and the first child elsewhere: the second child doesn't run
    la r1 SECOND
    sys 8

done:                             # vector 66; r14 is the address of `children_done`, r15 that of `sum`
    ldw r1 r14 0
    addi r1 r1 1
    stw r1 r14 0
    li r2 2
    bne r1 r2 turn
    ldw r1 r15 0
    out r1
stop:
    j stop

make_child:                       # r6 is the first of the child's pages, r14 where to go on
    li r12 4096
    mov r1 r6
    add r2 r1 r12
    add r3 r2 r12
    add r4 r3 r12
    add r5 r4 r12
    sys 0
    add r3 r5 r12
    add r7 r3 r12
    stw r7 r3 0
    add r8 r7 r12
    stw r8 r7 0
    mov r1 r6
    la r2 LAST
    sys 3
    add r9 r8 r12
    mov r1 r9                     # the handler table
    mov r2 r6
    la r3 LAST
    li r4 3
    sys 5
    add r1 r9 r12                 # the program
    mov r2 r6
    la r3 SEEN
    li r4 5
    sys 5
    jr r14

.page 0x401000
sum:
    .word 0
children_done:
    .word 0

.page FIRST+8*4096 at LAST
.handler 63 0x400 first r2=65 r3=63 r5=TIMES
.page FIRST+9*4096 at SEEN
first:                            # yield(parent, r2, saved for 63): refused with 14 if the root runs elsewhere,
    li r1 0                       # and with 16 while it has no handler for 65
    sys 8
    bne r0 r10 first              # it asks again
    addi r5 r5 -1
    bne r5 r10 first
    li r2 66
first_is_done:
    li r1 0
    sys 8
    bne r0 r10 first_is_done
first_stays:
    j first_stays

.page SECOND+8*4096 at LAST
.handler 63 0x400 second r2=65 r3=63 r5=TIMES
.page SECOND+9*4096 at SEEN
second:                           # the same
    li r1 0
    sys 8
    bne r0 r10 second             # it asks again
    addi r5 r5 -1
    bne r5 r10 second
    li r2 66
second_is_done:
    li r1 0
    sys 8
    bne r0 r10 second_is_done
second_stays:
    j second_stays

.page LAST
    .zero 66
    .word LAST+0x488              # vector 66
    .zero 189
    .word line                    # the block of vector 32
    .zero 7
    .word LAST                    # r7
    .word LAST+0x444              # r8
    .zero 7
    .word asked                   # the block of vector 65
    .zero 14
    .word children_done           # r14
    .word sum                     # r15
    .word done                    # the block of vector 66
    .zero 14
    .word children_done
    .word sum
