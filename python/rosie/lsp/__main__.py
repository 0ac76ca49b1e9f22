"""The program `rosie-lsp`."""
from __future__ import annotations

import argparse
import os
import sys
from typing import List, Optional

from ..faults import RosieError
from .server import Server


def main(words: Optional[List[str]] = None) -> int:
    """Answers an editor over standard input and output. Returns the exit status."""
    parser = argparse.ArgumentParser(prog="rosie-lsp",
                                     description="A language server for RPL, over standard input and output.")
    parser.add_argument("--libpath",
                        help="also look for packages in these folders, separated by colons")
    parser.add_argument("--stdio", action="store_true", help="accepted for editors that pass it; there is no other way")
    asked = parser.parse_args(words)
    try:
        return Server(sys.stdin.buffer, sys.stdout.buffer, asked.libpath.split(":") if asked.libpath else None).run()
    except RosieError as error:
        print(f"rosie-lsp: {error}", file=sys.stderr)
        return 2
    except (BrokenPipeError, KeyboardInterrupt):
        return 1


def run() -> None:
    """Runs the program. It ends at once: the thread that waits for the editor would hold up the usual end."""
    status = main()
    sys.stdout.flush()
    sys.stderr.flush()
    os._exit(status)


if __name__ == "__main__":
    run()
