"""The parts of scripts/bench: requests, the shapes of their streams, and measured runs of a program."""
