"""The console for a person."""
