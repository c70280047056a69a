"""Three agents of one fleet in real time, each in a network namespace of its own (tests/machines-trial)."""
