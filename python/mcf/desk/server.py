"""What the desk answers to its pages: the page, fragments of it, and files to take away."""

from __future__ import annotations

import logging
from collections.abc import Callable
from importlib.resources import files
from typing import Any

from flask import Flask, Response, request
from werkzeug.exceptions import HTTPException

from ..errors import McfError, TextError
from ..linkmode import saying
from ..output import one_line
from .pages import Page, Pages, number_of
from .state import Certificate, Desk
from .works import Works

BUSY = 202
HTML = "text/html; charset=utf-8"
REVISION, PART = "Desk-Revision", "Desk-Part"
"""The revision of the state that an answer is of, under one name for whole pages and under another one for single fragments."""
UNKNOWN = {404: "there is no such page here", 405: "this address takes no such request"}


class Server:
    """The routes of a desk."""

    def __init__(self, desk: Desk, works: Works) -> None:
        """A desk and what it can be asked for."""
        self.desk, self.works, self.pages = desk, works, Pages(desk, works)
        self.app = app = Flask("mcf-desk", static_folder=None, template_folder=None)
        logging.getLogger(app.name).setLevel(logging.CRITICAL)
        static = files(__package__).joinpath("static")
        fixed = {"/desk.js": (static.joinpath("desk.js").read_bytes(), "text/javascript"),
                 "/icon.svg": (static.joinpath("icon.svg").read_bytes(), "image/svg+xml"),
                 "/desk.css": (self.pages.style().encode(), "text/css")}
        for path, (data, kind) in fixed.items():
            app.add_url_rule(path, path, _constant(data, kind))
        for path, answer in {"/": self.page, "/news": self.news, "/link": self.link, "/links": self.links, "/growth": self.growth}.items():
            app.add_url_rule(path, path, answer)
        for path, change in {"/edit": self.edit, "/undo": self.undo, "/redo": self.redo, "/name": self.name, "/choose": self.choose,
                             "/solve": self.solve, "/stop": self.stop, "/failures": self.failures, "/sweepsolve": self.sweepsolve,
                             "/plain": self.plain, "/double": self.double, "/routes": self.routes}.items():
            app.add_url_rule(path, path, change, methods=["POST"])
        for path, file in {"script": self.script, "edited": self.edited, "certificate": self.certificate, "network": self.network,
                           "read": self.read, "report": self.report, "both": self.both, "routing": self.routing}.items():
            app.add_url_rule(f"/out/{path}", f"/out/{path}", file)
        app.register_error_handler(Exception, _refused)

    # -- what pages show

    def page(self) -> Response:
        """The whole page."""
        return Response(self.pages.page(), content_type=HTML)

    def news(self) -> Response:
        """What is new since a revision: everything, the progress of what is under way, or nothing."""
        seen = number_of(request.args.get("seen", "0"))
        if seen != self.desk.revision:
            return self._all()
        job = self.desk.job
        if job is not None and job.running:
            return self._one("job", self.pages.job)
        return Response(status=204)

    def link(self) -> Response:
        """The link that a page has chosen."""
        return self._one("link", lambda: self.pages.link(self._fields().link))

    def links(self) -> Response:
        """The list of links in an order, or those that have a text."""
        return self._one("rows", lambda: self.pages.rows(request.args.get("sort", "share"), request.args.get("find", "")[:100]))

    def growth(self) -> Response:
        """Growth alone."""
        return self._one("growth", lambda: self.pages.growth(self._fields()))

    def _fields(self) -> Page:
        """What the page that asks has chosen."""
        return Page.of(request.values)

    def _all(self, page: Page | None = None) -> Response:
        """All fragments, once the bounds of now are known; nothing where a later request has the same to show."""
        if not self.desk.settle():
            return Response(status=BUSY)
        with self.desk.lock:
            return _html(self.pages.fragments(page or self._fields()), REVISION, self.desk.revision)

    def _one(self, name: str, text: Callable[[], str]) -> Response:
        """One fragment; what else a page shows stays of the revision that it is of."""
        with self.desk.lock:
            return _html(self.pages.one(name, text()), PART, self.desk.revision)

    # -- what pages change

    def edit(self) -> Response:
        """Changes a link."""
        form = request.form
        self.desk.edit(number_of(form.get("link", "")), form.get("what", ""), form.get("capacity", "")[:100])
        return self._all()

    def undo(self) -> Response:
        """Takes the last edit back."""
        self.desk.undo()
        return self._all()

    def redo(self) -> Response:
        """Does it again."""
        self.desk.redo()
        return self._all()

    def name(self) -> Response:
        """Names an edit."""
        self.desk.call(number_of(request.form.get("edit", "")), request.form.get("name", ""))
        return self._all()

    def choose(self) -> Response:
        """Makes another certificate count."""
        self.desk.choose(request.form.get("name", ""))
        return self._all()

    def solve(self) -> Response:
        """Begins to solve."""
        self.works.solve(request.form.get("kind", ""), request.form.get("gap", "")[:20])
        return self._all()

    def stop(self) -> Response:
        """Stops what is under way."""
        self.desk.stop()
        return self._all()

    def failures(self) -> Response:
        """Failures on the map, at once."""
        self.works.sweep()
        return self._all(self.pages.failure_page(self._fields()))

    def sweepsolve(self) -> Response:
        """Begins to solve each failure."""
        self.works.sweepsolve()
        return self._all(self.pages.failure_page(self._fields()))

    def plain(self) -> Response:
        """Utilisation on the map."""
        return self._all(self.pages.plain_page(self._fields()))

    def double(self) -> Response:
        """Begins to double each link."""
        self.works.double(request.form.get("exact") == "yes")
        return self._all()

    def routes(self) -> Response:
        """Begins to find what today's routes carry."""
        self.works.route(request.form.get("method", ""))
        return self._all()

    # -- what is taken away

    def script(self) -> Response:
        """The script of the edits."""
        with self.desk.lock:
            return _file(self.desk.script().encode("latin-1"))

    def edited(self) -> Response:
        """The edited network."""
        with self.desk.lock:
            network = self.works.edited(tuple(self.desk.history.done)).network
        return self._network(network.data)

    def certificate(self) -> Response:
        """The certificate that counts."""
        return _file(self._counting().text.data)

    def network(self) -> Response:
        """Its network."""
        return self._network(self._counting().network.data)

    def _network(self, data: bytes) -> Response:
        """The file of a network, which says how links are read here."""
        return _file(saying(data, self.desk.ground.scaled.links))

    def read(self) -> Response:
        """The network as it was read."""
        return _file(self.desk.ground.text.data)

    def report(self) -> Response:
        """The report page of it."""
        one = self._counting()
        return self._reported([one.network.path, one.text.path])

    def both(self) -> Response:
        """The report page of the first certificate and of this one."""
        one, first = self._counting(), next(iter(self.desk.certificates.values()))
        return self._reported([first.network.path, first.text.path, one.text.path, "--net2", one.network.path])

    def routing(self) -> Response:
        """The routing that was found last."""
        found = self.works.found.routes
        if found is None:
            raise TextError("no routes have been found yet")
        return _file(found.text.data)

    def _counting(self) -> Certificate:
        """The certificate that counts."""
        one = self.desk.certificate
        if one is None:
            raise TextError("there is no certificate yet")
        return one

    def _reported(self, words: list[str]) -> Response:
        """A page of the tool report."""
        with self.desk.working() as work:
            page = work.tool("report", [*words, "--html", "-", f"--title={self.desk.ground.stem}", "--mcf", self.desk.ground.program])
        return _file(page.out)


def _html(text: str, header: str, revision: int) -> Response:
    """An answer of HTML, with the revision that it is of, which somebody else may have changed by now."""
    return Response(text, content_type=HTML, headers={header: str(revision)})


def _constant(data: bytes, kind: str) -> Any:
    """Answers with a file that was read when the desk began."""
    return lambda: Response(data, content_type=f"{kind}; charset=utf-8")


def _file(data: bytes) -> Response:
    """A file to take away; it is never shown as a page of the desk."""
    return Response(data, content_type="application/octet-stream", headers={"Content-Disposition": "attachment"})


def _refused(why: Exception) -> Response:
    """Whatever went wrong, in one line."""
    if isinstance(why, HTTPException):
        status, line = why.code or 500, UNKNOWN.get(why.code or 0, why.name)
    elif isinstance(why, (TextError, ValueError)):
        status, line = 400, str(why)
    elif isinstance(why, (McfError, MemoryError, OSError)):
        status, line = 503, str(why) or "out of memory"
    else:
        status, line = 500, f"internal error: {type(why).__name__}: {why}"
    return Response(f"{one_line(line)}\n", status=status, content_type="text/plain; charset=utf-8")
