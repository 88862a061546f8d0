"""Interface documents: their tables, and the configuration that they ask for."""
