"""The circuit that a user holds, and what makes another circuit, or a picture, of it.

Begin with `circuit`: its class has all calls, those on its text and those that ask the program too, of which most are inherited. Noise models,
and rules that change chances, are in `noise_models` and `noise_rules`, since they take a circuit and give one.
"""
