"""Reads valuations as the program prints them: rows, totals, classes with bases of their own, groups."""
