"""Helpers that the tests share: the program under test, folders of books, runs of the tools, and what a machine may lack."""
