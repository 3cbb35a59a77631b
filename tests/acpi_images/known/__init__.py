"""Sets of tables, and what the program has to answer of each, worked out by hand."""
