# A root with a timer and a service for two children that may do anything of the menu below, whatever their programs
# are: the monitor to copy. It never parks, and is refused no call that it needs.
#
#     tools/asmx examples/every/guarded.asmx --against guarded.img
#     ./lab against 100000 < guarded.img
#
# Look at what isn't there: `park 1`, `out 0x0000dead` and a refused call of the root, but for a yield to a child that
# threw its handler away (16) and a page that a child gave away (12). Four rules, each against an attack:
#
# - The root's block for 63 never has a stale context while a child runs: its pc is then `stray`, which ends the child's
#   turn. So a child that enters the root by vector 63 replays nothing.
# - A child is believed only where r3 is its address, and a yield leaves 0 there, as the block has it.
# - The root takes a page back before it looks into it (`call 6`), and lends it again. If that is refused the page is
#   configuration by now, and the child is not served.
# - A yield that is refused leads to the other child.
.equ FIRST 0x410000               # the first child: fourteen pages
.equ SECOND 0x420000
.equ TABLE 8*4096                 # its handler table, then its program, then four pages to read and write
.equ LAST 0xfffff000
.equ SEEN 0xffc00000              # where a child has its program
.equ SAVED LAST+0x444             # the root's block for 63
.frames 64
.cpus 1
.line 0 500 40

.may each ld 0                    # a fault
.may each trap 32 0 0             # a forged line
.may each trap 63 0 0
.may each trap 70 0 0             # a request
.may each call 8 0 32 256
.may each call 8 0 63 63
.may each call 8 0 70 256
.may each st LAST+4*63 0          # it can't be entered any more
.may each st LAST+0x408 1         # the number of its request, if its block is where it began
.may each call 0 LAST SEEN+4096 SEEN+2*4096 SEEN+3*4096 SEEN+4*4096    # it gives its handler table away

.page 0x400000
    sys 10
    la r6 FIRST
    jal r14 make_child
    la r6 SECOND
    jal r14 make_child
    la r7 LAST                    # vector 32 gets its handler last
    la r8 LAST+0x400
    stw r8 r7 128
    la r13 SAVED
    la r15 turn

next_turn:                        # the root is masked, and r15 is the address of `turn`
    ldw r1 r15 0
    ldw r7 r15 4
    stw r7 r15 0
    stw r1 r15 4
    stw r10 r15 8                 # no line has come in this turn
    li r2 63                      # yield(child, 63, nothing is saved)
    li r3 256
    sys 8
    j next_turn                   # refused: it can't be entered any more

stray:                            # a child forged a line, or entered by 63: its turn is over
    sys 10
    la r8 stray
    stw r8 r13 0
    j next_turn

line:                             # vector 32; r13 is where the pc stands in the root's block for 63
    bne r3 r10 stray              # a line has r3 = 0, and has masked the root
    ldw r7 r13 0
    la r8 service
    bne r7 r8 stray
    ldw r3 r13 16                 # the root was interrupted before its vcli: the child is served,
    stw r13 r15 8                 # and then its turn is over
service:                          # vector 70; r3 is the child, r15 the address of `turn`
    sys 10                        # from here on no line is taken, and nothing that was saved of the root is waited for
    la r8 stray
    stw r8 r13 0
    beq r3 r10 next_turn          # a yield: r3 is what the block has
    mov r6 r3
    mov r1 r6                     # removeVAddr(child, LAST): the page is the root's alone, or configuration
    la r2 LAST
    sys 6
    bne r0 r10 next_turn
    li r9 TABLE
    add r9 r9 r6
    ldw r4 r9 0x408               # its r1, if its block is where it began; the answer is its r0
    addi r4 r4 1
    andi r4 r4 1
    stw r4 r9 0x404
    out r4
    mov r1 r9                     # addVAddr
    mov r2 r6
    la r3 LAST
    li r4 3
    sys 5
    bne r0 r10 refused
    ldw r7 r15 8                  # a line has come: it goes on when it has its turn again
    bne r7 r10 next_turn
    mov r1 r6                     # the child goes on after its trap
    li r2 63
    li r3 256
    sys 8
    j next_turn
refused:
    li r0 0xdead
    out r0
stop:
    j stop

make_child:                       # r6 is the first of the child's pages, r14 where to go on
    li r12 4096
    mov r1 r6
    add r2 r1 r12
    add r3 r2 r12
    add r4 r3 r12
    add r5 r4 r12
    sys 0
    bne r0 r10 refused
    add r3 r5 r12
    add r7 r3 r12
    stw r7 r3 0
    add r8 r7 r12
    stw r8 r7 0
    mov r1 r6
    la r2 LAST
    sys 3
    bne r0 r10 refused
    add r9 r8 r12
    mov r1 r9                     # the handler table
    mov r2 r6
    la r3 LAST
    li r4 3
    sys 5
    bne r0 r10 refused
    add r9 r9 r12
    mov r1 r9                     # the program
    mov r2 r6
    la r3 SEEN
    li r4 5
    sys 5
    bne r0 r10 refused
    li r8 4                       # four pages more
    li r4 3
lend:
    add r9 r9 r12
    add r3 r3 r12
    mov r1 r9
    mov r2 r6
    sys 5
    bne r0 r10 refused
    addi r8 r8 -1
    bne r8 r10 lend
    jr r14

.page 0x401000
turn:
    .word FIRST
    .word SECOND
    .word 0                       # not 0 where a line has come before the root was masked

.page FIRST+TABLE at LAST
.handler 63 0x400 first
.page FIRST+TABLE+4096 at SEEN
first:                            # it asks with 0 and 1 in turns, and faults if the answer isn't the other one
    mov r6 r1
    int 70
    xor r7 r0 r6
    beq r7 r10 first_fails
    xor r1 r6 r7
    j first
first_fails:
    ldw r0 r10 0

.page SECOND+TABLE at LAST
.handler 63 0x400 second
.page SECOND+TABLE+4096 at SEEN
second:
    mov r6 r1
    int 70
    xor r7 r0 r6
    beq r7 r10 second_fails
    xor r1 r6 r7
    j second
second_fails:
    ldw r0 r10 0

.page LAST
    .zero 63
    .word SAVED
    .zero 6
    .word LAST+0x488              # vector 70
    .zero 185
    .word line                    # the block of vector 32
    .zero 3
    .word 1                       # r3
    .zero 9
    .word SAVED                   # r13
    .zero 1
    .word turn                    # r15
    .word stray                   # the block of vector 63
    .zero 13
    .word SAVED
    .zero 1
    .word turn
    .word service                 # the block of vector 70
    .zero 13
    .word SAVED
    .zero 1
    .word turn
