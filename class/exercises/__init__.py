"""The exercises, and the judge of what is handed in."""
