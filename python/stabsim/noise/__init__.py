"""Noise: which errors a circuit's channels make, what these flip, and how often. No proof covers it.

Begin with `models`, the error model of a circuit. The errors of one channel are in `channels`; `marking` puts them in the circuit's text as
marks, of which the program says what each flips, as `flipped` has it; `joining` makes mechanisms of errors that flip the same. `gauges` and
`pauli_observables` are for bits that the program has not by themselves. `noisy_records` draws what errors flip among records. After an edit
`renewing` looks for the errors that flip something else. `noise_placing` says where the noise of a noise model goes; the models themselves,
which take a circuit and give one, are in the folder `circuit`.
"""
