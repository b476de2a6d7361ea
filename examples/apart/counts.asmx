# A count from 0 to 3, over and over, each shown on top of r1.
    add r3 r1 r2
    out r3
    addi r2 r2 1
    andi r2 r2 3
    beq r0 r0 -5
