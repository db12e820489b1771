"""The checks of the pages, one module for each word of scripts/docs.py."""
