"""The checks of scripts/check.py, a module for each of its words, and what they share."""
