"""The database of a book, `book.sqlite`, and the files beside it."""
