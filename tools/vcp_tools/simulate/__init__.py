"""`simulate`: a plain interpreter of Structured Text as controllers have it. It is the second reading of what `lower` writes, and imports nothing of it."""
