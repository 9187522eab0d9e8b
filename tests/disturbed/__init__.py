"""What `tests/faults` does: commands, and what disturbs them."""
