"""What the tools know of documents and reports: the schema, places in JSON texts, and names of properties."""
