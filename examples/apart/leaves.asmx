# Two guests, one of which leaves: it divides 12 by 3, by 2, by 1 and then by 0, and no partition takes that.
#
#     tools/asmx examples/apart/leaves.asmx --image leaves.img
#     ./lab apart 1000 400 1 < leaves.img
#
# Look at the line `leaves`: after it comes the way from step 400 on, and what can happen then is not searched.
.equ A 0x410000
.equ B 0x420000
.frames 64
.cpus 2
.line 0 100 50
.include guests.asmx

.page 0x401000
guests:
    .word A
    .word B
.zero 6
    .word guests

.page A+8*4096 at LAST
.handler 63 0x480
.handler 64 0x400 a r1=0xa0
.page A+9*4096 at SEEN
a:
.include counts.asmx

.page B+8*4096 at LAST
.handler 63 0x480
.handler 64 0x400 b r1=3 r2=12
.page B+9*4096 at SEEN
b:
    div r3 r2 r1
    out r3
    addi r1 r1 -1
    j b
