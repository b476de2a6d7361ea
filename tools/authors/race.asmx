# A race: root and child add to one counter in a page that both have, each by a load and a store. The root runs on one
# processor and the child on the other. Where one comes between the load and the store of the other, a count is lost.
#
#     tools/asmx tools/authors/race.asmx --image race.img
#     seq 1 200 | parallel --tag './pip run 600 {} < race.img | grep -o " out .*" | xargs' | sort -k2 -k1,1n | uniq -c -f1
#
# The groups show which counts the root saw at the end. 0x28, twenty of each, is what is meant, and comes only where neither
# is ever between the load and the store of the other: among the seeds 1 to 3000 it doesn't come. In the largest group the
# root shows nothing: there the child's processor took the line, so that the child is interrupted and never goes on, and
# the root waits for it for ever. What mends the first is one counter for each; what mends the second is a yield back.
.equ CHILD 0x410000
.equ TABLE CHILD+8*4096           # the child's handler table
.equ CODE CHILD+9*4096            # its program
.equ COUNT CHILD+10*4096          # the counter, and behind it whether the child is done
.equ LAST 0xfffff000
.equ SEEN 0xffc00000              # where the child has its program; the counter is the next page
.equ TIMES 20
.frames 64
.cpus 2
.line 0 120 0                     # once: the idle processor takes it, and the root runs there

.page 0x400000
    sys 10
    li r12 4096
    la r1 CHILD                   # createPartition
    mov r6 r1
    add r2 r1 r12
    add r3 r2 r12
    add r4 r3 r12
    add r5 r4 r12
    sys 0
    add r3 r5 r12                 # prepare
    add r7 r3 r12
    stw r7 r3 0
    add r8 r7 r12
    stw r8 r7 0
    mov r1 r6
    la r2 LAST
    sys 3
    la r1 TABLE                   # addVAddr: handler table, program, counter
    mov r2 r6
    la r3 LAST
    li r4 3
    sys 5
    la r1 CODE
    mov r2 r6
    la r3 SEEN
    li r4 5
    sys 5
    la r1 COUNT
    mov r2 r6
    la r3 SEEN+4096
    li r4 3
    sys 5
    mov r1 r6                     # yield(child, 64, nothing is saved): the root runs nowhere
    li r2 64
    li r3 256
    sys 8
stop:
    j stop

line:                             # the root, on the other processor: r4 is the counter's page, r5 how often
    ldw r1 r4 0
    addi r1 r1 1
    stw r1 r4 0
    addi r5 r5 -1
    bne r5 r10 line
wait:
    ldw r1 r4 4
    beq r1 r10 wait
    ldw r1 r4 0
    out r1
    j stop

.page TABLE at LAST
.handler 64 0x400 child r4=SEEN+4096 r5=TIMES

.page CODE at SEEN
child:
    ldw r1 r4 0
    addi r1 r1 1
    stw r1 r4 0
    addi r5 r5 -1
    bne r5 r10 child
    li r1 1
    stw r1 r4 4
done:
    j done

.page LAST
.handler 32 0x400 line r4=COUNT r5=TIMES
