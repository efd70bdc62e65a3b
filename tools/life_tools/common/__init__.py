"""Code that all tools share: the forms of days and amounts, files, packages, the program, progress and printing."""
