"""Served rooms, and the pages of their seats."""
