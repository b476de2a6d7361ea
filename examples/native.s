# Three children for a monitor that is no program: one loops, one faults, one traps.
#
#     ./pip asm < examples/native.s > native.img
#     ./pip native 3 60 < native.img
#
# The root has no code here. The command builds its children, whose programs are the three pages below, and whenever
# the root runs a callback chooses who is next (`run` with the child's number). Look at what brings the root back: a
# line, vector 32, takes child 0 off, which would keep the processor else; the fault of child 1, vector 14; the trap of
# child 2, vector 64. Children 0 and 2 go on where they were. Child 1 has thrown away its handler of vector 63, in
# whose block it would have been saved: at its second turn the yield is refused with status 16, so it is dropped
# (`drop 1 16`), and from then on the turn goes from child 0 to child 2 and back.
.frames 52
.cpus 1
.line 0 10 10

# ---- Child 0 counts and shows each number. It never asks for anything.
.page 0x400000
count:
addi r1 r1 1
out r1
beq r0 r0 count

# ---- Child 1 stores 0 at 0xfffff0fc, its entry of vector 63, and then loads from an address where it has no page.
.page 0x401000
li r7 0xf0fc
lih r7 0xffff
stw r0 r7 0
ldw r1 r0 0x5000

# ---- Child 2 shows 0x64, 0x65 and so on, and gives the processor back by a trap after each.
.page 0x402000
li r1 0x64
again:
out r1
addi r1 r1 1
int 64
beq r0 r0 again
