"""Questions on a circuit, with their answers as arrays and records: shots, faults, coins, flows, distances, detectors that are missing.

Begin with `asked`: each of its methods is one run of the program, and what it answers is a type in a module of its own. The other modules are
for answers that follow from several runs by algebra. Noise counts in none of them.
"""
