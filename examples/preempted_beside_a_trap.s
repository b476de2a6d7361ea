# A guest that lines interrupt learns what its sibling does: here the sibling traps at once.
#
#     ./pip asm < examples/preempted_beside_a_trap.s > preempted_beside_a_trap.img
#     ./pip native 2 1200 < preempted_beside_a_trap.img
#
# A monitor outside the machine lets two children run in turn, and line 0 is raised at each 50th step. The second child
# counts in r1. Each time it is interrupted it is saved in its own block for 63, with r1 at 0xfffff408: when the word
# there has changed, the child shows it. So it sees where it was interrupted, and that depends on the first child.
#
# The first child gives its turns away. In preempted_beside_a_loop.s it uses all of them, and the second shows other
# words.
.frames 52
.cpus 1
.line 0 50 50

# ---- The first child's program.
.page 0x400000
loop:
int 64
beq r0 r0 loop

# ---- The second child's program.
.page 0x401000
li r7 0xf000
lih r7 0xffff
again:
addi r1 r1 1
ldw r5 r7 0x408
beq r5 r6 again
mov r6 r5
out r5
beq r0 r0 again
