"""Serves a desk on the loopback address until it is interrupted; its children end with it."""

from __future__ import annotations

import logging
import os
import resource
import sys
import threading
import webbrowser
from dataclasses import dataclass
from typing import Any

from waitress.channel import HTTPChannel
from waitress.server import create_server
from waitress.task import ErrorTask

from .. import jsons
from ..errors import TextError
from ..given import name_of
from .edits import script
from .security import HEADERS, MOST_BYTES, Gate, Guard
from .server import Server
from .state import Desk
from .works import Works

CONNECTIONS = 1000
FILES = 4096
IDLE_SECONDS = 10
LINES = {413: "a request has at most 1 MB: nothing was changed", 431: "the head of this request is too long: nothing was changed"}


@dataclass(frozen=True)
class Ways:
    """How a desk is served: its port, 0 for any that is free; and how its address is told."""

    port: int = 0
    browser: bool = True
    quiet: bool = False


class OneLine(ErrorTask):  # type: ignore[misc]
    """Tells in one line what the server itself refuses."""

    def execute(self) -> None:
        """Answers, and closes the connection."""
        error = self.request.error
        body = f"{LINES.get(error.code, 'this is no request that the desk understands')}\n".encode()
        self.status = f"{error.code} {error.reason}"
        self.response_headers += [("Content-Type", "text/plain; charset=utf-8"), ("Connection", "close"), *HEADERS]
        self.close_on_finish = True
        self.content_length = len(body)
        self.write(body)


class Channel(HTTPChannel):  # type: ignore[misc]
    """A connection whose refusals are one line."""

    error_task_class = OneLine


def serve(desk: Desk, works: Works, ways: Ways) -> int:
    """Serves until it is interrupted, which is its only end: KeyboardInterrupt with what is to be said of the edits."""
    logging.getLogger("waitress").setLevel(logging.CRITICAL)
    gate = Gate(lambda address: _say(f"{address} (for another browser)"))
    server = _bound(Guard(Server(desk, works).app.wsgi_app, gate), ways.port)
    gate.port = int(server.effective_port)
    threading.Thread(target=_run, args=(server, desk), daemon=True).start()
    try:
        _announce(gate, ways)
        if not desk.certificates:
            works.solve("solve", works.first_gap or "")
        threading.Event().wait()
    except KeyboardInterrupt as why:
        raise KeyboardInterrupt(f"{why}{kept(desk)}") from None
    finally:
        desk.close()
        server.close()
    return 0


def _run(server: Any, desk: Desk) -> None:
    """Serves; the end of the desk closes the socket that is waited at, whatever the server says of that."""
    try:
        server.run()
    except Exception:
        if not desk.closed:
            raise


def _bound(app: Guard, port: int) -> Any:
    """A server on the loopback address alone; connections on which nothing comes are closed soon, so nobody keeps others out by them."""
    most = _allowed_connections()
    try:
        server = create_server(
            app, host="127.0.0.1", port=port, threads=8, ident=None, max_request_body_size=MOST_BYTES, max_request_header_size=1 << 16,
            connection_limit=most, channel_timeout=IDLE_SECONDS, cleanup_interval=1, asyncore_use_poll=True,
            clear_untrusted_proxy_headers=True)
    except OSError as fault:
        raise TextError(f"port {port} of 127.0.0.1: {fault.strerror or fault}").at(kind="usage") from None
    server.channel_class = Channel
    return server


def _allowed_connections() -> int:
    """How many connections there may be, beside the files of certificates and children; the system is asked for room for them."""
    soft, hard = resource.getrlimit(resource.RLIMIT_NOFILE)
    wanted = FILES if hard == resource.RLIM_INFINITY else min(hard, FILES)
    if soft != resource.RLIM_INFINITY and soft < wanted:
        resource.setrlimit(resource.RLIMIT_NOFILE, (wanted, hard))
    return min(CONNECTIONS, max(100, wanted - 400))


def _announce(gate: Gate, ways: Ways) -> None:
    """Tells the address, and opens it in a browser."""
    address = gate.address
    # (without a screen a browser of text would take the terminal)
    opens = ways.browser and bool(os.environ.get("DISPLAY") or os.environ.get("WAYLAND_DISPLAY"))
    if not ways.quiet or not opens:
        _say(f"{address} (Ctrl-C ends the desk)")
    if opens:
        threading.Thread(target=webbrowser.open, args=(address,), daemon=True).start()


def _say(line: str) -> None:
    """Tells the person at the terminal; on standard error, where standard output is to have a JSON object alone."""
    print(f"desk: {line}", file=sys.stderr if jsons.asked() else sys.stdout, flush=True)


def kept(desk: Desk) -> str:
    """Where the edits are when the desk ends."""
    done = desk.history.done
    if not done:
        return ""
    if desk.save is not None and not desk.unsaved:
        return f"; the edits are in {desk.save}"
    text = name_of(" ".join(line.partition(" #")[0] for line in script(desk.ground.network, done).split("\n")).rstrip())
    trouble = f" ({desk.unsaved})" if desk.unsaved else ""
    return f"; the edits{trouble}, as a script of mcf whatif: {text}"
