"""The parts of tools/test, and how they are run."""
