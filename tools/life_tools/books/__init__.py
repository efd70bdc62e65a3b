"""Works on many books: lists, runs on this machine and on a cluster, totals, division into new books, headroom."""
