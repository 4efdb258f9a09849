"""Texts of Stim's, judged by the program, with refusals that speak of the user's lines."""

from dataclasses import replace

from stabsim import checking, program
from stabsim.errors import Refused
from stabsim.text.profile import Profile, profile_of
from stabsim.text.quoting import as_written
from stabsim.text.reading import content_of


def judged(text: str) -> Profile:
    """The texts that one of Stim's becomes, once the program has judged them. Of several faults the first line's is raised."""
    said = said_of(text)
    if said is not None:
        return Profile.of_read(text, said)
    profile = becoming(text)
    try:
        return replace(profile, counts=program.run(["check"], profile.judged.text))
    except Refused as refused:
        raise in_users_words(refused, profile) from None


def said_of(text: str) -> bytes | None:
    """What the program's `check` says of a text that it reads as it is, which takes far less time than to look at each line; None if it
    does not. Raises Refused if the text is too long for the program, with its noise or without it."""
    try:
        return program.run(["check"], text)
    except Refused as refused:
        if refused.name == "TooLong":
            raise
        return None


def becoming(text: str) -> Profile:
    """The texts that one of Stim's becomes. If a line can't become such, the program judges those in front of it first, so that the
    first fault is raised."""
    profile, fault = profile_of(text)
    if fault is None:
        return profile
    contents = list(map(content_of, profile.judged.lines))
    opened = sum(content.endswith("{") for content in contents) - contents.count("}")
    try:
        program.run(["check"], "\n".join([*profile.judged.lines, *["}"] * opened]))
    except Refused as refused:
        # A fault without a line is of the whole text, and comes after all of its lines.
        if refused.line is not None:
            raise in_users_words(refused, profile) from None
    raise fault


def in_users_words(refused: Refused, profile: Profile) -> Refused:
    """A refusal of the judged text as one of the user's."""
    copy = profile.judged
    try:
        items = copy.items()
    except Refused:
        # If blocks are not closed, no item is named.
        items = ()
    return as_written(refused, copy.lines, copy.origins, items, profile.text)


def without_noise(text: str) -> str:
    """The circuit of a text of Stim's without its noise: channels are left out, and measurements lose the chance of a wrong record.

    Instructions that the program does not read become those that it reads, as by `from_stim`. Everything else stays as it is written,
    comments too. Heralded errors leave their records, which are then 0.

    >>> import stabsim
    >>> print(stabsim.without_noise('''R 0 1
    ... DEPOLARIZE2(0.01) 0 1
    ... MXX(0.02) 0 1  # a check'''))
    R 0 1
    MPP X0*X1 # a check
    """
    checking.text("text", text, "stabsim.Circuit.from_file(path)")
    return becoming(text).circuit.text if said_of(text) is None else text
