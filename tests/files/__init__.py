"""Texts in files: images, decks, journals, reels."""
