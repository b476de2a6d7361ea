# A root that shows 5 over and over, on a machine of two processors with a line that is raised at step 0.
.frames 16
.cpus 2
.line 3 0 0
.page 0x00400000
li r1 5
out r1
beq r0 r0 -2
