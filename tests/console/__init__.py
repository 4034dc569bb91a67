"""Sessions at one console."""
