"""Editing sessions: a process of the program keeps a circuit with its recorded run, and follows each edit.

Begin with `session`, what a user holds, and then `plain_session`, its process, of which each method is one line of a script. `history` keeps
what takes an edit back, and `retargeting` finds the edits that leave each lookback at its record.
"""
