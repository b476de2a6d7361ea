# A race: root and child add to one counter in a page that both have, twice each, by a load and a store. Which counts
# can the root show at the end, if line 0 comes at any time?
#
#     tools/asmx examples/every/race.asmx --image race.img
#     ./lab every 10000 < race.img
#
# Look at the `out` lines: 4 is what is meant. It shows 3 or 2, too, where one comes between the load and the store of
# the other: the way says when.
.equ CHILD 0x410000
.equ TABLE CHILD+8*4096           # the child's handler table
.equ CODE CHILD+9*4096            # its program
.equ COUNT CHILD+10*4096          # the counter, and after it whether the child is done
.equ LAST 0xfffff000
.equ SEEN 0xffc00000              # where the child has its program; the counter is the next page
.equ TIMES 2
.frames 64
.cpus 2
.line 0 120 0

.page 0x400000
    sys 10
.include make_child.asmx
    la r1 COUNT                   # addVAddr: the counters
    mov r2 r6
    la r3 SEEN+4096
    li r4 3
    sys 5
    mov r1 r6                     # yield(child, 64, nothing is saved): the root runs nowhere
    li r2 64
    li r3 256
    sys 8
stop:
    j stop

line:                             # the root, by the line: r4 is the counter's page, r5 how often
    ldw r1 r4 0
    addi r1 r1 1
    stw r1 r4 0
    addi r5 r5 -1
    bne r5 r10 line
wait:
    ldw r1 r4 4
    beq r1 r10 wait
    ldw r1 r4 0
    out r1
    j stop

.page TABLE at LAST
.handler 64 0x400 child r4=SEEN+4096 r5=TIMES

.page CODE at SEEN
child:
    ldw r1 r4 0
    addi r1 r1 1
    stw r1 r4 0
    addi r5 r5 -1
    bne r5 r10 child
    li r1 1
    stw r1 r4 4
done:
    j done

.page LAST
.handler 32 0x400 line r4=COUNT r5=TIMES
