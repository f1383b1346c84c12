"""What tools/soak, tools/shrink and tools/study are made of."""
