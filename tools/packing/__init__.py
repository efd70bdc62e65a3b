"""Builds what `sh life pack` and `sh life install` make from the clone: a package, a tar file, and the files in them."""
