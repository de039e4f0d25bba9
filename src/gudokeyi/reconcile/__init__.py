"""What a sheet or a form says beside what the book has: checks, inference and guards."""
