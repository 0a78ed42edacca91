"""What tools/pages draws."""
