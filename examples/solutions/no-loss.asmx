# A monitor that loses no request, whatever its timer is: that of the examples, by tools/asmx.
.include ../timer_and_services.s
