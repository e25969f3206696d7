"""Questions about all runs of a program: shown, or answered by rows that replay."""
