"""The parts of tools/timeline: what lived when, and the page that shows it."""
