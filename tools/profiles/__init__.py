"""Routing profiles and tag tables: what the program refuses in them, and what becomes of published forms."""
