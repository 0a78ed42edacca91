"""The parts of tools/diff. Nothing here is proved."""
