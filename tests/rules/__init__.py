"""The independent rules by which the tests judge the program and the tools.

They are written from docs/reference/rules.md and docs/reference/refusals.md alone, and use no code of either. Which checks a
command meets, in which order, and what it books is read from the page itself.
"""
