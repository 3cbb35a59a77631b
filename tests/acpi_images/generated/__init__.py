"""Sets of tables and image texts made at random, each from a seed and a number alone."""
