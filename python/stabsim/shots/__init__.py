"""Shots of a circuit: which are asked for, with which seed, on how many cores. The bits are the same however shots are split.

Begin with `shot_parts`, which has the program draw them, on one core or on several; `seeds` has arrays that keep their seed.
"""
