"""Comparisons: of two programs, and of a run with wanted rows."""
