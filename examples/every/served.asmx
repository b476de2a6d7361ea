# A root that serves its child and loses no request to a timer, whenever that comes: a small one like that of
# timer_and_services.s. The child's requests are 0 and 1 in turns.
#
#     tools/asmx examples/every/served.asmx --image served.img
#     ./lab every 20000 < served.img
#
# Look at `switch 1 1 32`: a line came before the root's vcli, and r0 to r3 of the request are in the root's block for
# 63. The root goes on with them (`call 8 switch 1 1 63`). And `out 0x0000dead`, by which a lost request would show,
# isn't there.
#
# Another child breaks it, and that is left so: with ../any_child.may `trap 63` enters the root by the block in which it
# is saved, where the pc is 0 (`park 1 14`). guarded.asmx holds against that.
.equ CHILD 0x410000
.equ TABLE CHILD+8*4096           # the child's handler table
.equ CODE CHILD+9*4096            # its program
.equ LAST 0xfffff000
.equ SEEN 0xffc00000              # where the child has its program
.frames 64
.cpus 1
.line 0 200 40

.page 0x400000
    sys 10
.include make_child.asmx
    la r7 LAST                    # vector 32 gets its handler last
    la r8 LAST+0x400
    stw r8 r7 128
child_goes_on:                    # yield(child, 63, nothing is saved)
    la r1 CHILD
    li r2 63
    li r3 256
    sys 8
    j lost

line:                             # the timer: r13 is where the pc stands in the root's block for 63
    ldw r7 r13 0
    beq r7 r10 child_goes_on
    li r1 1                       # the root was interrupted: it goes on, unmasked
    li r2 63
    li r3 256
    sys 8
    j lost

service:                          # vector 70; r15 is where the number of the next request stands
    sys 10                        # from here on no line is taken, and nothing that was saved of the root is waited for
    stw r10 r13 0
    la r8 TABLE
    ldw r4 r8 0x408               # r1 of the child's block for 63
    ldw r5 r15 0
    bne r4 r5 lost
    addi r5 r5 1
    andi r5 r5 1
    stw r5 r15 0
    out r4
    j child_goes_on
lost:
    li r0 0xdead
    out r0
stop:
    j stop

.page 0x401000
next:
    .word 0

.page TABLE at LAST
.handler 63 0x400 child

.page CODE at SEEN
child:
    int 70
    addi r1 r1 1
    andi r1 r1 1
    j child

.page LAST
    .zero 63
    .word LAST+0x444              # where the root is saved
    .zero 6
    .word LAST+0x488              # vector 70
    .zero 185
    .word line                    # the block of vector 32
    .zero 13
    .word LAST+0x444              # r13
    .zero 19
    .word service                 # the block of vector 70
    .zero 13
    .word LAST+0x444              # r13
    .zero 1
    .word next                    # r15
