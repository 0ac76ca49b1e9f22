"""The program `rosie-play`."""
from __future__ import annotations

import argparse
import os
import sys
import webbrowser
from typing import List, Optional

from ..faults import RosieError
from .server import Server
from .work import Work


def parsed(words: Optional[List[str]]) -> argparse.Namespace:
    """The words of the command line."""
    parser = argparse.ArgumentParser(prog="rosie-play",
                                     description="Opens a page in the browser for making patterns by trying them.")
    parser.add_argument("--libpath", help="look for packages in these folders, separated by colons")
    parser.add_argument("--port", type=int, default=0, help="the port on 127.0.0.1; by default any free port")
    parser.add_argument("--no-browser", action="store_true", help="print the address, but don't open the browser")
    return parser.parse_args(words)


def main(words: Optional[List[str]] = None) -> int:
    """Runs the playground until it is interrupted. Returns the exit status."""
    asked = parsed(words)
    try:
        server = Server(Work(asked.libpath.split(":") if asked.libpath else None), asked.port)
    except (RosieError, ValueError, OSError, OverflowError) as error:
        print(f"rosie-play: {error}", file=sys.stderr)
        return 2
    print(f"The playground is at {server.address}", flush=True)
    print("Press Ctrl-C to end it.", flush=True)
    can_show = os.environ.get("DISPLAY") or os.environ.get("WAYLAND_DISPLAY") or os.environ.get("BROWSER")
    if can_show and not asked.no_browser:
        webbrowser.open(server.address)
    try:
        server.serve_forever()
    except KeyboardInterrupt:
        print()
    finally:
        server.server_close()
    return 0


if __name__ == "__main__":
    sys.exit(main())
