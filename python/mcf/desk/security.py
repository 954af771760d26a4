"""Who is let in: a browser that has opened the desk's first address, from the desk's own pages, and nobody else."""

from __future__ import annotations

import secrets
import threading
from collections.abc import Callable, Iterable
from http.cookies import CookieError, SimpleCookie
from typing import Any
from urllib.parse import parse_qs

HEADERS = [
    ("Content-Security-Policy", "default-src 'self'; object-src 'none'; base-uri 'none'; form-action 'self'; frame-ancestors 'none'"),
    ("Referrer-Policy", "no-referrer"), ("X-Content-Type-Options", "nosniff"), ("X-Frame-Options", "DENY"), ("Cache-Control", "no-store"),
    ("Cross-Origin-Opener-Policy", "same-origin"), ("Cross-Origin-Resource-Policy", "same-origin"),
]
MOST_BYTES = 1 << 20

Environ = dict[str, Any]
Start = Callable[..., Any]


class Gate:
    """The secrets of a desk: tokens, each of which lets one browser in, and the value of the cookie of those that are in."""

    def __init__(self, announce: Callable[[str], None]) -> None:
        """A first token; what is announced is an address for the person who started the desk."""
        self._lock = threading.Lock()
        self._announce = announce
        self._cookie = secrets.token_urlsafe(32)
        self._fresh = secrets.token_urlsafe(32)
        self._used: set[str] = set()
        self._told = ""
        self.port = 0

    @property
    def host(self) -> str:
        """The only name under which the desk answers."""
        return f"127.0.0.1:{self.port}"

    @property
    def origin(self) -> str:
        """The only pages that may ask it for anything."""
        return f"http://{self.host}"

    @property
    def address(self) -> str:
        """The address that lets one browser in."""
        return f"{self.origin}/?token={self._fresh}"

    @property
    def cookie(self) -> str:
        """The cookie's name; browsers tell ports of a machine not apart."""
        return f"mcf-desk-{self.port}"

    def lets_in(self, token: str) -> bool:
        """Whether a token is the one that was not used yet, which it then is; one that was used has a new address announced, once."""
        with self._lock:
            if secrets.compare_digest(token.encode(), self._fresh.encode()):
                self._used.add(token)
                self._fresh = secrets.token_urlsafe(32)
                return True
            again = token in self._used and self._told != self._fresh
            self._told = self._fresh if again else self._told
        if again:
            self._announce(self.address)
        return False

    def knows(self, environ: Environ) -> bool:
        """Whether a request has the cookie."""
        try:
            jar: SimpleCookie[str] = SimpleCookie(environ.get("HTTP_COOKIE", ""))
        except CookieError:
            return False
        found = jar.get(self.cookie)
        return found is not None and secrets.compare_digest(found.value.encode(), self._cookie.encode())

    def given(self) -> tuple[str, str]:
        """The header that gives the cookie."""
        return "Set-Cookie", f"{self.cookie}={self._cookie}; Path=/; HttpOnly; SameSite=Strict"


class Guard:
    """A WSGI program in front of another one, which sees only requests that may be answered."""

    def __init__(self, inner: Callable[[Environ, Start], Iterable[bytes]], gate: Gate) -> None:
        """The program behind it, and the secrets."""
        self._inner, self._gate = inner, gate

    def __call__(self, environ: Environ, start: Start) -> Iterable[bytes]:
        """Answers a request, or refuses it in one line."""
        refused = self._foreign(environ)
        if refused:
            return answered(start, "403 Forbidden", refused)
        if environ.get("QUERY_STRING", "").startswith("token="):
            return self._entered(environ, start)
        if not self._gate.knows(environ):
            return answered(start, "403 Forbidden", "this desk lets in the browser that opened its first address, which its terminal shows")

        def begun(status: str, headers: list[tuple[str, str]], *rest: Any) -> Any:
            """Adds the headers of all answers."""
            return start(status, [*headers, *HEADERS], *rest)

        return self._inner(environ, begun)

    def _foreign(self, environ: Environ) -> str:
        """Why a request comes from elsewhere; nothing where it does not."""
        gate, method = self._gate, environ["REQUEST_METHOD"]
        if environ.get("HTTP_HOST") != gate.host:
            return f"this desk answers under http://{gate.host}/ alone"
        origin = environ.get("HTTP_ORIGIN")
        if origin is not None and origin != gate.origin:
            return "this desk answers its own pages alone, and this request is of another one"
        if origin is None and method not in ("GET", "HEAD"):
            return "a request that changes something has to say which page it is of (Origin)"
        if environ.get("HTTP_SEC_FETCH_SITE", "none") not in ("none", "same-origin"):
            return "another page sent your browser here: type the address yourself, or copy it from the terminal"
        return ""

    def _entered(self, environ: Environ, start: Start) -> Iterable[bytes]:
        """Lets a browser in by its token, and sends it on to the address without it."""
        token = parse_qs(environ["QUERY_STRING"]).get("token", [""])[0]
        on = ("Location", "/")
        if environ["PATH_INFO"] == "/" and environ["REQUEST_METHOD"] == "GET":
            if self._gate.knows(environ):
                return answered(start, "303 See Other", "this browser is in already", [on])
            if self._gate.lets_in(token):
                return answered(start, "303 See Other", "let in", [on, self._gate.given()])
        return answered(start, "403 Forbidden", "this address was used already, or is none of this desk's: its terminal shows another one")


def answered(start: Start, status: str, line: str, headers: Iterable[tuple[str, str]] = ()) -> list[bytes]:
    """Answers in one line."""
    data = f"{line}\n".encode()
    start(status, [("Content-Type", "text/plain; charset=utf-8"), ("Content-Length", str(len(data))), *headers, *HEADERS])
    return [data]
