"""Jobs, with cards and with tapes."""
