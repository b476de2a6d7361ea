"""A script or a run as one page to step through."""
