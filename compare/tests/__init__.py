"""What tests/tools tries, one subject a file."""
