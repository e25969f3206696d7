"""`campaign`: every fault of a class or a script, judged in parts by the proved programs."""
