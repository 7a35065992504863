"""A document and its report as one HTML file that stands alone."""
