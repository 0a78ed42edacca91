"""The parts of tools/plan. Nothing here is proved."""
