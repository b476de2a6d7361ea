# The root that tells a line from a forged one, with a line at any time: it shows 1 and 2, and no call is refused. With
# ../any_child.may it still tells them apart, but `trap 63` parks it, as in served.asmx.
.include ../solutions/tell-apart.asmx
