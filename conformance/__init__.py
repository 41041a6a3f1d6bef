"""The house of the suite: its package is in src/, its tests in tests/, the programs that they test in programs/."""
