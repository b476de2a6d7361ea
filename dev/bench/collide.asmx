# Chosen so that a hash whose products aren't folded takes its states to few places. `every 200000` takes as long as of spread.asmx.
.frames 16
.cpus 1
.page 0x400000
    li r2 127
    li r10 0x4000
loop:
    addi r1 r1 1
    and r1 r1 r2
    bne r1 r3 loop
    addi r9 r9 1
    and r9 r9 r2
    bne r9 r3 loop
    addi r15 r15 1
    and r15 r15 r2
    j loop
