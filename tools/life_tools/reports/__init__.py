"""Makes reports, movements and statements: their figures, and the sheets, files and pages that show them."""
