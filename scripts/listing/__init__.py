"""What scripts/lists.py reads of the tree, and what it writes."""
