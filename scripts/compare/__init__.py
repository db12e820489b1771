"""The comparisons of scripts/compare.py, a module for each of its words or two, and what they share."""
