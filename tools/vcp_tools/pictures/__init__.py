"""A run as a table, a value change dump, a timing diagram or a report."""
