"""`evidence`: which sources, programs, toolchain and gate stand behind what is said to be proved."""
