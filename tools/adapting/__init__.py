"""The parts of tools/adapt. Nothing here is proved."""
