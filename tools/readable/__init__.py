"""The parts of tools/system and tools/draw."""
