"""Reads the journal and the checkpoint: records, columns, policies at a position, wholeness, seals, private copies."""
