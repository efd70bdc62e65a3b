"""The window on a book: pages in a web browser, which post nothing; `life-tools browse` opens it."""
