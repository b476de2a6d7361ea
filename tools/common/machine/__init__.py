"""The machine in plain Python, as the reference has it: nothing is proved about it."""
