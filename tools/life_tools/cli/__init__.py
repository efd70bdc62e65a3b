"""One module for each name of `life-tools`: `arguments(parser)` declares its arguments, `run(options)` returns its status."""
