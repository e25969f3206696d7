"""What the tools read: texts, rows, images, scripts, and what the proved programs print; one module a format."""
