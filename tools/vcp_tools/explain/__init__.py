"""`explain`: what a refusal means."""
