"""The daily desk: claims clerks' files, checks and posts them, and records the result of each row."""
