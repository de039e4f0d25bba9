"""Folders of version 0.11, whose files were the book."""
