"""What tests/clients checks."""
