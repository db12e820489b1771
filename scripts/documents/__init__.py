"""The documents of scripts/documents.py, a module for each of its words; the two small ones are beside them."""
