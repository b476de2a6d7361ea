"""What the built program costs, counted and timed."""
