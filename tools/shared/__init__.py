"""What tools/why, tools/explain and tools/check share. No part of warmgate's program, and nothing here is proved."""
