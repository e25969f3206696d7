"""`rows`: stimuli and rows files."""
