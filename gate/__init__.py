"""What ./check and tools/edits are made of."""
