"""The tools for the work around `life`: they read its files and its printed lines, and compute in whole cents."""
