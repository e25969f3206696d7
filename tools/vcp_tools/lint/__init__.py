"""`lint`: what is lawful and likely a mistake."""
