"""The tools for authors of monitors."""
