"""A mirror of a warehouse's tables in PostgreSQL."""
