"""Works on scripts: parsing, warnings, dry runs, the rest of an interrupted run, imports, transcripts, explained refusals."""
