"""Bits and tables as arrays, and as bytes: what the program writes, and shots in files.

Begin with `bits`, which packs bits and unpacks them, and `combining`, the arithmetic of sets that are added modulo 2; sets are rows of CSR
arrays here. `formats` reads and writes Stim's formats of results. Nothing here knows what a circuit is.
"""
