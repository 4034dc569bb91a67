"""Sources and what the assembler makes of them."""
