"""Which shots are asked for, and shots in chunks, one after another."""

from collections.abc import Iterator

from stabsim import checking


def checked(shots: int, first_shot: int) -> tuple[int, int]:
    """How many shots, and the number of the first; TypeError or ValueError if they are none."""
    count, first = checking.whole("shots", shots), checking.whole("first_shot", first_shot, 0, checking.MOST_NUMBERS)
    if count > checking.MOST_NUMBERS - first:
        raise ValueError(f"shots is {count}: give {checking.MOST_NUMBERS - first} or fewer, since shots have numbers below 2**64")
    return count, first


def of(shots: int, chunk: int, first_shot: int) -> Iterator[tuple[int, int]]:
    """The first shot of each chunk, and how many it has, of this many shots from a first one on; ValueError if a chunk has none."""
    shots, first_shot = checked(shots, first_shot)
    checking.whole("chunk", chunk, 1)
    end = first_shot + shots
    return ((start, min(chunk, end - start)) for start in range(first_shot, end, chunk))
