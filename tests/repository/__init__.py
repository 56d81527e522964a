"""Tests of the repository itself: its crates, its files and its tools, which need neither the prover nor the program."""
