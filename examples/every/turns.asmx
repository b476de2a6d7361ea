# Two children in turns by a timer, whenever it comes. Each shows two numbers in turns: a count that goes on for ever
# would never come to an end, and nor would the search.
#
#     tools/asmx examples/every/turns.asmx --image turns.img
#     ./lab every 10000 < turns.img
#
# Look at what isn't there: no call is refused, and nothing faults or parks, for any number of lines at any times. And
# with ../any_child.may nothing parks, and only yields to a child that threw its handler away are refused (16): then the
# other one has its turn. A line that a child forges doesn't mask the root, so the handler does it first.
.equ FIRST 0x410000               # the first child: ten pages, of which the last two are its handler table and program
.equ SECOND 0x420000
.equ LAST 0xfffff000
.equ SEEN 0xffc00000              # where a child has its program
.frames 64
.cpus 1
.line 0 300 40

.page 0x400000
    sys 10
    la r6 FIRST
    jal r14 make_child
    la r6 SECOND
    jal r14 make_child
    la r7 LAST                    # vector 32 gets its handler last
    la r8 LAST+0x400
    stw r8 r7 128
    la r15 turn

    j next_turn
line:                             # vector 32: a line has r3 = 0 and has masked the root, a child that forges one leaves
    beq r3 r10 next_turn          # its address there, or 1, which the block has
    sys 10
next_turn:                        # the root is masked, and r15 is the address of `turn`
    ldw r1 r15 0
    ldw r7 r15 4
    stw r7 r15 0
    stw r1 r15 4
    li r2 63                      # yield(child, 63, nothing is saved): it goes on where it was
    li r3 256
    sys 8
    j next_turn                   # refused: it can't be entered any more
refused:
    out r0
stop:
    j stop

make_child:                       # r6 is the first of the child's pages, r14 where to go on
    li r12 4096
    mov r1 r6
    add r2 r1 r12
    add r3 r2 r12
    add r4 r3 r12
    add r5 r4 r12
    sys 0
    bne r0 r10 refused
    add r3 r5 r12
    add r7 r3 r12
    stw r7 r3 0
    add r8 r7 r12
    stw r8 r7 0
    mov r1 r6
    la r2 LAST
    sys 3
    bne r0 r10 refused
    add r9 r8 r12
    mov r1 r9                     # the handler table
    mov r2 r6
    la r3 LAST
    li r4 3
    sys 5
    bne r0 r10 refused
    add r1 r9 r12                 # the program
    mov r2 r6
    la r3 SEEN
    li r4 5
    sys 5
    bne r0 r10 refused
    jr r14

.page 0x401000
turn:
    .word FIRST
    .word SECOND

.page FIRST+8*4096 at LAST
.handler 63 0x400 first r1=0x10 r2=1
.page FIRST+9*4096 at SEEN
first:
    out r1
    xor r1 r1 r2
    j first

.page SECOND+8*4096 at LAST
.handler 63 0x400 second r1=0x20 r2=1
.page SECOND+9*4096 at SEEN
second:
    out r1
    xor r1 r1 r2
    j second

.page LAST
.zero 256
    .word line
    .zero 3
    .word 1                       # r3
    .zero 11
    .word turn
