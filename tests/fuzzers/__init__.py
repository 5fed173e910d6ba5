"""What tests/fuzz gives to the readers of this repository."""
