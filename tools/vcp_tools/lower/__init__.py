"""`lower`: a program of the profile that does what a text as controllers have it does."""
