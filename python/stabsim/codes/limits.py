"""The limits of the program that circuits are made within."""

MOST_STEPS = 1_048_576
MOST_QUBITS = 1024
