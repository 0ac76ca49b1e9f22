"""The server of the page: on 127.0.0.1 alone, for who knows its token, and with nothing on the disk behind it."""
from __future__ import annotations

import base64
import hashlib
import hmac
import json
import os
import re
import secrets
import socket
import sys
from http.server import BaseHTTPRequestHandler, ThreadingHTTPServer
from typing import Any, Dict, Optional

from .work import BadRequest, Work

# Four texts of the greatest length are shorter, even if JSON takes six bytes for each character.
LONGEST_REQUEST = 1 << 24
PAGE = os.path.join(os.path.dirname(os.path.abspath(__file__)), "page.html")


def policy_of(page: str) -> str:
    """The content security policy of the page: its own script and style, by their hashes, and its own calls."""
    def sources(tag: str) -> str:
        """The hashes of all elements of a kind."""
        texts = re.findall(rf"<{tag}>(.*?)</{tag}>", page, re.DOTALL)
        digests = [base64.b64encode(hashlib.sha256(text.encode()).digest()).decode() for text in texts]
        return " ".join(f"'sha256-{digest}'" for digest in digests)
    return (f"default-src 'none'; script-src {sources('script')}; style-src {sources('style')}; connect-src 'self'; "
            "img-src data:; base-uri 'none'; form-action 'none'; frame-ancestors 'none'")


class Server(ThreadingHTTPServer):
    """A playground on a port of 127.0.0.1; 0 is any that is free."""

    daemon_threads = True

    def __init__(self, work: Work, port: int = 0) -> None:
        super().__init__(("127.0.0.1", port), Handler)
        self.work = work
        self.token = secrets.token_urlsafe(24)
        with open(PAGE, encoding="utf-8") as file:
            self.page = file.read()
        self.headers = {
            "Content-Security-Policy": policy_of(self.page), "X-Content-Type-Options": "nosniff",
            "Cache-Control": "no-store",
            "Referrer-Policy": "same-origin", "Cross-Origin-Opener-Policy": "same-origin",
            "Cross-Origin-Resource-Policy": "same-origin", "X-Frame-Options": "DENY"}

    def handle_error(self, request: Any, client_address: Any) -> None:
        """Reports nothing if a browser went away before its answer."""
        if not isinstance(sys.exc_info()[1], (ConnectionError, socket.timeout)):
            super().handle_error(request, client_address)

    @property
    def origin(self) -> str:
        """What the page's own requests come from."""
        return f"http://127.0.0.1:{self.server_port}"

    @property
    def address(self) -> str:
        """The address of the page, with its token."""
        return f"{self.origin}/{self.token}/"


class Handler(BaseHTTPRequestHandler):
    """One request."""

    server: Server
    server_version = "rosie-play"
    sys_version = ""
    protocol_version = "HTTP/1.1"
    timeout = 60

    def log_message(self, *_: object) -> None:
        """Nothing is written for a request: its address holds the token."""

    def do_GET(self) -> None:
        """Gives the page."""
        path = self._allowed()
        if path == "":
            self._send(200, "text/html; charset=utf-8", self.server.page.encode())
        elif path is not None:
            self._refuse(404, "no such page")

    def do_POST(self) -> None:
        """Answers a call of the page."""
        path = self._allowed()
        if path is None:
            return
        if self.headers.get("Origin") != self.server.origin:
            self._refuse(403, "another origin")
        elif self.headers.get_content_type() != "application/json":
            self._refuse(415, "no JSON")
        elif not re.fullmatch(r"\d{1,9}", self.headers.get("Content-Length", "")):
            self._refuse(411, "no length")
        elif int(self.headers["Content-Length"]) > LONGEST_REQUEST:
            self._refuse(413, "too long")
        else:
            self._answer(path)

    def _answer(self, path: str) -> None:
        try:
            asked = json.loads(self.rfile.read(int(self.headers["Content-Length"])))
            answer = self.server.work.call(path, asked)
        except (ValueError, RecursionError, BadRequest) as error:
            self._refuse(400, str(error))
            return
        self._send(200, "application/json", json.dumps(answer).encode())

    def _allowed(self) -> Optional[str]:
        """What stands after the token, or None for a request that is refused."""
        if self.headers.get("Host") != f"127.0.0.1:{self.server.server_port}":
            self._refuse(403, "another host")
            return None
        if self.headers.get("Origin", self.server.origin) != self.server.origin:
            self._refuse(403, "another origin")
            return None
        token, slash, path = self.path[1:].partition("/")
        if not slash or not hmac.compare_digest(token.encode("utf-8", "replace"), self.server.token.encode()):
            self._refuse(404, "no such page")
            return None
        return path

    def _refuse(self, status: int, reason: str) -> None:
        self.close_connection = True
        self._send(status, "text/plain; charset=utf-8", (reason + "\n").encode(), {"Connection": "close"})

    def _send(self, status: int, kind: str, text: bytes, more: Optional[Dict[str, str]] = None) -> None:
        self.send_response(status)
        for name, value in {**self.server.headers, **(more or {})}.items():
            self.send_header(name, value)
        self.send_header("Content-Type", kind)
        self.send_header("Content-Length", str(len(text)))
        self.end_headers()
        self.wfile.write(text)
