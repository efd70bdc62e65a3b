"""Tools of the audit: flags, samples, papers and letters of confirmation."""
