"""Works on the basis and its mortality tables: reading, checking, converting and rounding them."""
