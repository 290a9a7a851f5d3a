"""Mutants of the desk, a table each; `desk.py` tries them."""
