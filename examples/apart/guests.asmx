# The root makes its guests, and lets each begin on a processor of its own. On the processor that takes line 0 the guest
# goes on that was interrupted there; if all that have begun run elsewhere, the next one begins. Before the last does,
# the root takes its handler of the line away.
#
# The page `guests` has the addresses of the guests, and a 0 after them; at 32 how far the root has come; and from 36 on
# how many further pages each gets.
.equ LAST 0xfffff000
.equ SEEN 0xffc00000              # where a guest has its program; its further pages are after it
.page 0x400000
    sys 10
    la r15 guests
    addi r13 r15 36
make:
    ldw r6 r15 0
    beq r6 r10 made
    ldw r11 r13 0
    jal r14 make_guest
    addi r15 r15 4
    addi r13 r13 4
    j make
made:
    la r15 guests

line:                             # the root, by the line: r15 is `guests`
    ldw r9 r15 32
    mov r7 r15
go_on:
    beq r7 r9 begin
    ldw r1 r7 0                   # yield(guest, 63, nothing is saved): it goes on, unless it runs elsewhere
    li r2 63
    li r3 256
    sys 8
    addi r7 r7 4
    j go_on
begin:
    addi r9 r9 4
    stw r9 r15 32
    ldw r8 r9 0
    bne r8 r10 not_last
    la r8 LAST
    stw r10 r8 128
not_last:
    ldw r1 r7 0
    li r2 64
    li r3 256
    sys 8
refused:
    out r0
stop:
    j stop

make_guest:                       # r6 is the first of the guest's pages, r11 how many more it gets, r14 where to go on
    li r12 4096
    mov r1 r6
    add r2 r1 r12
    add r3 r2 r12
    add r4 r3 r12
    add r5 r4 r12
    sys 0
    bne r0 r10 refused
    add r3 r5 r12
    add r7 r3 r12
    stw r7 r3 0
    add r8 r7 r12
    stw r8 r7 0
    mov r1 r6
    la r2 LAST
    sys 3
    bne r0 r10 refused
    add r7 r8 r12                 # the handler table
    mov r1 r7
    mov r2 r6
    la r3 LAST
    li r4 3
    sys 5
    bne r0 r10 refused
    add r7 r7 r12                 # the program
    mov r1 r7
    mov r2 r6
    la r3 SEEN
    li r4 5
    sys 5
    bne r0 r10 refused
lend:                             # and the pages after it
    beq r11 r10 done
    add r7 r7 r12
    mov r1 r7
    mov r2 r6
    add r3 r3 r12
    li r4 7
    sys 5
    bne r0 r10 refused
    addi r11 r11 -1
    j lend
done:
    jr r14

.page LAST
.handler 32 0x400 line r15=guests
