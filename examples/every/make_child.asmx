# A partition makes its child at CHILD, and lends it its handler table and its program. r6 is CHILD, r12 a page's size.
    li r12 4096
    la r1 CHILD                   # createPartition
    mov r6 r1
    add r2 r1 r12
    add r3 r2 r12
    add r4 r3 r12
    add r5 r4 r12
    sys 0
    add r3 r5 r12                 # prepare
    add r7 r3 r12
    stw r7 r3 0
    add r8 r7 r12
    stw r8 r7 0
    mov r1 r6
    la r2 LAST
    sys 3
    la r1 TABLE                   # addVAddr: the handler table, and the program
    mov r2 r6
    la r3 LAST
    li r4 3
    sys 5
    la r1 CODE
    mov r2 r6
    la r3 SEEN
    li r4 5
    sys 5
