"""The edits of scripts/edits.py, one module for each of its words."""
