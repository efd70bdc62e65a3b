"""Computes reserves and projections exactly from the public standards, and compares printed ones with them."""
