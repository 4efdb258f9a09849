"""Starts the page's server: python3 -m stabsim.page [FILE]."""

import argparse
import asyncio
import pathlib
import socket
import sys

import stabsim
from stabsim.page.board import Board
from stabsim.page.opening import opened_of
from stabsim.page.server import HOST, serve

# The port that is taken if none is asked for and it is free.
USUAL_PORT = 7862


def words() -> argparse.Namespace:
    """What the command line asks for."""
    parser = argparse.ArgumentParser(prog="python3 -m stabsim.page", description="Opens a page that edits a circuit and shows what changed.")
    parser.add_argument("file", metavar="FILE", nargs="?",
                        help="the circuit, which is read and not written, or a link that holds one; an empty circuit without it")
    parser.add_argument("--port", type=int, help=f"a port of 127.0.0.1, or 0 for a free one; {USUAL_PORT} without it if that is free, since the browser "
                                                                "keeps unsaved work by the port")
    parser.add_argument("--public-port", metavar="PORT", type=int,
                        help="the port in the address, if an ssh tunnel leads from another port to this one")
    parser.add_argument("--seed", type=int, default=0, help="the seed of the coins")
    parser.add_argument("--save", metavar="NAME", type=pathlib.Path, help="a file that the button Save writes the circuit to")
    return parser.parse_args()


def port_of(asked: int | None) -> int:
    """The port to listen on: the one that is asked for, else the usual one, or 0 for a free one if it is taken."""
    if asked is not None:
        return asked
    with socket.socket() as trying:
        # As the server does, so that a port which was just let go is no longer taken.
        trying.setsockopt(socket.SOL_SOCKET, socket.SO_REUSEADDR, 1)
        try:
            trying.bind((HOST, USUAL_PORT))
        except OSError:
            return 0
    return USUAL_PORT


def main() -> int:
    asked = words()
    try:
        board = Board(opened_of(asked.file), seed=asked.seed, save=asked.save)
    except (OSError, ValueError, stabsim.StabsimError) as fault:
        print(f"stabsim.page: {asked.file}: {fault}", file=sys.stderr)
        return 1
    try:
        asyncio.run(serve(board, port_of(asked.port), asked.public_port))
    except KeyboardInterrupt:
        pass
    finally:
        board.close()
    return 0


if __name__ == "__main__":
    sys.exit(main())
