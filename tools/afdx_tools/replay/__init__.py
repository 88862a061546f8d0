"""A replay as columns of numbers, and what is counted of it."""
