# A guest on two processors beside one on a third: its worker puts numbers into a box, and its top, which runs on
# another processor meanwhile, shows each and empties the box.
#
#     tools/asmx examples/apart/pair.asmx --image pair.img
#     ./lab apart 1000 1500 1 < pair.img
#
# Look at the ways: the first guest is searched by all orders of the turns of both its processors.
.equ PAIR 0x410000
.equ OTHER 0x430000
.frames 96
.cpus 3
.line 0 1000 100
.include guests.asmx
.equ CHILD SEEN+4096              # where the top has the pages of its worker
.equ TABLE CHILD+8*4096
.equ CODE CHILD+9*4096
.equ BOX CHILD+10*4096            # the box; the worker has it after its program

.page 0x401000
guests:
    .word PAIR
    .word OTHER
.zero 6
    .word guests
    .word 11

.page PAIR+8*4096 at LAST
.handler 63 0x480
.handler 64 0x400 top
.page PAIR+9*4096 at SEEN
top:
.include ../every/make_child.asmx
    la r1 BOX
    mov r2 r6
    la r3 SEEN+4096
    li r4 3
    sys 5
    la r4 BOX
run_worker:                       # yield(worker, 63, saved in the block for 63): the root lets the top go on after it
    mov r1 r6
    li r2 63
    li r3 63
    sys 8
    beq r0 r10 run_worker
show:                             # it is refused: the worker runs on another processor
    ldw r1 r4 0
    beq r1 r10 show
    out r1
    stw r10 r4 0
    j show

.page PAIR+18*4096 at LAST
.handler 63 0x400 worker r4=SEEN+4096
.page PAIR+19*4096 at SEEN
worker:
    ldw r1 r4 0
    bne r1 r10 worker
    addi r5 r5 1
    andi r5 r5 3
    addi r1 r5 0x100
    stw r1 r4 0
    j worker

.page OTHER+8*4096 at LAST
.handler 63 0x480
.handler 64 0x400 other r1=0xb0
.page OTHER+9*4096 at SEEN
other:
.include counts.asmx
