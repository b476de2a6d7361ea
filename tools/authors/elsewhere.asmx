# A child whose pages are elsewhere shows 42, which its block has in r2, and the address at which it sees a name of
# its own. It uses what tools/asmx adds.
.equ FIRST 0x410000
.equ LAST 0xfffff000
.frames 64
.cpus 1
.page 0x400000
start:
    la r1 FIRST          # createPartition
    li r12 4096
    mov r6 r1
    add r2 r1 r12
    add r3 r2 r12
    add r4 r3 r12
    add r5 r4 r12
    sys 0
    add r3 r5 r12
    add r7 r3 r12
    stw r7 r3 0
    add r8 r7 r12
    stw r8 r7 0
    mov r1 r6
    la r2 LAST
    sys 3
    add r1 r8 r12
    mov r2 r6
    la r3 LAST
    li r4 3
    sys 5
    la r1 FIRST+9*4096
    la r3 0xffc00000
    li r4 5
    sys 5
    mov r1 r6
    li r2 64
    li r3 256
    sys 8
    j stop
.page FIRST+8*4096 at LAST
.handler 64 0x400 child r2=42 r3=inner
.page FIRST+9*4096 at 0xffc00000
child:
    out r2
    out r3
inner:
    j inner
.page 0x401000
stop: j stop
