"""What stabsim must answer, written from the definitions in `specs/` and `docs/` and not from the program."""

import program  # noqa: F401: it makes the package stabsim be found
