"""A circuit as its text: lines, the items that they make, and noise in it; and which text the program is given in its place.

Begin with `reading`, the one reader of circuit text in the package, and `names`, which says what each instruction takes. `profile` then
makes the texts that the program reads: instructions that it lacks as those that do the same, and the circuit with and without noise.
`carrying` is the other way to it, for sessions: noise and comments ride along in tags, and are written back.
"""
