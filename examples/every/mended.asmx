# The race of race.asmx, mended: the root shows 4 and nothing else, whenever line 0 comes, and as often as it likes.
#
#     tools/asmx examples/every/mended.asmx --image mended.img
#     ./lab every 20000 < mended.img
#
# Root and child have a counter each. A child that was interrupted goes on by a yield of the root. One that is done
# yields to the root, which is refused (14) where the root runs on the other processor, and waits. And vector 32 gets
# its handler when the child is made: a line that comes before stays pending.
.equ CHILD 0x410000
.equ TABLE CHILD+8*4096           # the child's handler table
.equ CODE CHILD+9*4096            # its program
.equ COUNT CHILD+10*4096          # the child's counter, and whether it is done; the same of the root
.equ LAST 0xfffff000
.equ SEEN 0xffc00000              # where the child has its program; the counters are the next page
.equ TIMES 2
.frames 64
.cpus 2
.line 0 120 0

.page 0x400000
    sys 10
.include make_child.asmx
    la r1 COUNT                   # addVAddr: the counters
    mov r2 r6
    la r3 SEEN+4096
    li r4 3
    sys 5
    la r7 LAST                    # vector 32 gets its handler last
    la r8 LAST+0x400
    stw r8 r7 128
    mov r1 r6                     # yield(child, 64, nothing is saved): the root runs nowhere
    li r2 64
    li r3 256
    sys 8
stop:
    j stop

line:                             # the root, by the line or by the child's yield: r4 is the counters' page
    sys 10                        # a line that is taken before this begins here again, and that is all
    ldw r1 r4 12
    bne r1 r10 wait
add:
    ldw r1 r4 8
    addi r1 r1 1
    stw r1 r4 8
    addi r5 r5 -1
    bne r5 r10 add
    li r1 1
    stw r1 r4 12
wait:
    ldw r1 r4 4
    bne r1 r10 show
    la r1 CHILD                   # yield(child, 63, nothing is saved): refused where it runs on the other processor
    li r2 63
    li r3 256
    sys 8
    j wait
show:
    ldw r1 r4 0
    ldw r2 r4 8
    add r1 r1 r2
    out r1
    j stop

.page TABLE at LAST
.handler 63 0x444
.handler 64 0x400 child r4=SEEN+4096 r5=TIMES

.page CODE at SEEN
child:
    ldw r1 r4 0
    addi r1 r1 1
    stw r1 r4 0
    addi r5 r5 -1
    bne r5 r10 child
    li r1 1
    stw r1 r4 4
done:                             # yield(parent, 65, nothing is saved): refused where the root runs
    li r1 0
    li r2 65
    li r3 256
    sys 8
    j done

.page LAST
.handler 65 0x400 line r4=COUNT r5=TIMES
