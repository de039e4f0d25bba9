"""What is found of animals beside what the book has of them: each kind as data, and in words."""
