# A monitor that gives two children their turns: that of the examples, by tools/asmx.
.include ../monitor.s
