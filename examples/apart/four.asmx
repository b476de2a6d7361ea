# Four guests on four processors. Each counts from 0 to 3 over and over, and shows each count on top of its own number.
#
#     tools/asmx examples/apart/four.asmx --image four.img
#     ./lab apart 1000 1200 1 < four.img
#
# Look at the sum of the states, and at what all of them make together: a search by `every` needs their product.
.equ A 0x410000
.equ B 0x420000
.equ C 0x430000
.equ D 0x440000
.frames 96
.cpus 4
.line 0 100 50
.include guests.asmx

.page 0x401000
guests:
    .word A
    .word B
    .word C
    .word D
.zero 4
    .word guests

.page A+8*4096 at LAST
.handler 63 0x480
.handler 64 0x400 a r1=0xa0
.page A+9*4096 at SEEN
a:
.include counts.asmx

.page B+8*4096 at LAST
.handler 63 0x480
.handler 64 0x400 b r1=0xb0
.page B+9*4096 at SEEN
b:
.include counts.asmx

.page C+8*4096 at LAST
.handler 63 0x480
.handler 64 0x400 c r1=0xc0
.page C+9*4096 at SEEN
c:
.include counts.asmx

.page D+8*4096 at LAST
.handler 63 0x480
.handler 64 0x400 d r1=0xd0
.page D+9*4096 at SEEN
d:
.include counts.asmx
