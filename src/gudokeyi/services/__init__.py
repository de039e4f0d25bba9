"""The use cases: what a terminal, a page or a program can ask of a book."""
