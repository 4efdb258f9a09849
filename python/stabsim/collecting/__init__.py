"""Logical errors, counted: many error models on many cores, with a file to go on from, and the rates that follow.

Begin with `collecting`, which has the one call; `counting` is what a worker does, and `ledger` keeps the file.
"""
