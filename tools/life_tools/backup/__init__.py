"""Keeps a second copy of a book, to which only additions are copied, and makes a book from such a copy."""
