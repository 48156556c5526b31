"""Tries of the tools."""
