"""The parts of tools/look. Nothing here is proved."""
