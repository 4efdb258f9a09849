"""What goes wrong: one class of exception for each way."""


class StabsimError(Exception):
    """Anything that this package raises of its own.

    >>> import stabsim
    >>> issubclass(stabsim.Refused, stabsim.StabsimError)
    True
    """


class MissingProgram(StabsimError):
    """There is no program, or one that is too old for this package.

    >>> import os, unittest.mock
    >>> import stabsim
    >>> with unittest.mock.patch.dict(os.environ, STABSIM="/no/program"):
    ...     stabsim.find_program()  # doctest: +ELLIPSIS
    Traceback (most recent call last):
    stabsim.errors.MissingProgram: STABSIM names /no/program, which does not start: ...
    """


class Refused(StabsimError):
    """The program refused a circuit, an edit or a question.

    number: int, and name: str, as docs/use/refusals.md lists them; line: int, counted from 1, or None if
    the refusal belongs to no line; explanation: str, lines that say what is wrong and what to do, as `stabsim check` has them,
    perhaps none.

    >>> import stabsim
    >>> stabsim.Circuit("M 0\\nX 1 rec[-1]").numbers()
    Traceback (most recent call last):
    stabsim.errors.Refused: line 2: refused 3 BadTarget
    2: X 1 rec[-1]
           ^^^^^^^
    This instruction takes qubits, and no records.
    Give it a qubit's number; a record comes first in a pair of CX, CY or CZ.
    """

    def __init__(self, number: int, name: str, line: int | None = None, explanation: str = "") -> None:
        # All of them are arguments of the exception, so that it can be sent from one process to another.
        super().__init__(number, name, line, explanation)
        self.number = number
        self.name = name
        self.line = line
        self.explanation = explanation.rstrip("\n")

    def __str__(self) -> str:
        place = "" if self.line is None else f"line {self.line}: "
        return f"{place}refused {self.number} {self.name}" + (f"\n{self.explanation}" if self.explanation else "")


class ProgramFailed(StabsimError):
    """The program ended in a way that is no answer and no refusal, such as when it was killed.

    >>> import stabsim.program
    >>> stabsim.program.run(["sample", "--shots", "many"], "M 0")  # doctest: +ELLIPSIS
    Traceback (most recent call last):
    stabsim.errors.ProgramFailed: ... ended with status 2: ...
    """


class SessionEnded(StabsimError):
    """A session's program has ended, or what it said is no reply: no more can be asked of the session.

    >>> import stabsim
    >>> session = stabsim.Circuit("M 0").edit()
    >>> session.close()
    >>> session.records()
    Traceback (most recent call last):
    stabsim.errors.SessionEnded: the session has ended: it was closed
    """


class UnsupportedNoise(StabsimError):
    """Noise that Stim reads, and of which no error model is made; what Stim refuses too is `Refused`.

    line: int, counted from 1; why: str.

    >>> import stabsim
    >>> stabsim.error_model("R 0\\nDEPOLARIZE1(0.8) 0\\nM 0")
    Traceback (most recent call last):
    stabsim.errors.UnsupportedNoise: line 2: DEPOLARIZE1(0.8) is stronger than full depolarising
    """

    def __init__(self, line: int, why: str) -> None:
        super().__init__(line, why)
        self.line = line
        self.why = why

    def __str__(self) -> str:
        return f"line {self.line}: {self.why}"


class BadErrorModel(StabsimError):
    """A text is no detector error model.

    line: int, counted from 1; why: str.

    >>> import stabsim
    >>> stabsim.ErrorModel.from_dem("error(2) D0")
    Traceback (most recent call last):
    stabsim.errors.BadErrorModel: line 1: an error has one chance, from 0 to 1
    """

    def __init__(self, line: int, why: str) -> None:
        super().__init__(line, why)
        self.line = line
        self.why = why

    def __str__(self) -> str:
        return f"line {self.line}: {self.why}"


class BadShots(StabsimError):
    """A file has no shots of the format and the numbers of bits that were named.

    why: str; line: int, counted from 1, or None in a format without lines.

    >>> import stabsim
    >>> import os, tempfile
    >>> with tempfile.TemporaryDirectory() as folder:
    ...     stabsim.Circuit("010\\n012\\n").to_file(os.path.join(folder, "shots.01"))
    ...     stabsim.read_shots(os.path.join(folder, "shots.01"), format="01", num_measurements=3)
    Traceback (most recent call last):
    stabsim.errors.BadShots: line 2: a character is neither 0 nor 1
    """

    def __init__(self, why: str, line: int | None = None) -> None:
        super().__init__(why, line)
        self.why = why
        self.line = line

    def __str__(self) -> str:
        return self.why if self.line is None else f"line {self.line}: {self.why}"


class BadPrediction(StabsimError, ValueError):
    """A decoder gave something that is no bool array (shots, observables).

    >>> import stabsim
    >>> model = stabsim.ErrorModel.from_dem("error(0.1) D0 D1 L0")
    >>> list(stabsim.collect({"one": model}, ("copy", lambda model: lambda detectors: detectors), shots=8, seed=1))
    Traceback (most recent call last):
    stabsim.errors.BadPrediction: the decoder of one gave an array (8, 2), and not one of (shots, observables), which is (8, 1)
    """


class NotDecomposed(StabsimError):
    """An error mechanism flips more than two detectors, and no other mechanisms together flip the same.

    >>> import stabsim
    >>> three = "R 0\\nX_ERROR(0.1) 0\\nM 0\\n" + 3 * "DETECTOR rec[-1]\\n"
    >>> stabsim.error_model(three, decompose=True)  # doctest: +ELLIPSIS
    Traceback (most recent call last):
    stabsim.errors.NotDecomposed: ...
    """


class OtherExperiment(StabsimError):
    """A file of counts belongs to another seed or another error model, or another process writes to it.

    >>> import os, tempfile
    >>> import numpy, stabsim
    >>> def nothing(model):
    ...     return lambda detectors: numpy.zeros((len(detectors), model.num_observables), dtype=bool)
    >>> models = {"one": stabsim.ErrorModel.from_dem("error(0.1) D0 L0")}
    >>> with tempfile.TemporaryDirectory() as folder:
    ...     for seed in (1, 2):
    ...         counted = list(stabsim.collect(models, ("none", nothing), shots=1024, seed=seed, save=os.path.join(folder, "counts.csv")))  # doctest: +ELLIPSIS
    Traceback (most recent call last):
    stabsim.errors.OtherExperiment: ...
    """
