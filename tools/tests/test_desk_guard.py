"""Who is let in to a desk, and what becomes of requests that nobody should send."""

from __future__ import annotations

import re
import socket
import urllib.request
from pathlib import Path

import pytest

from desks import EXAMPLES, Open, Running, desk
from mcf import Program

NET, CERT = EXAMPLES / "triangle.net", EXAMPLES / "triangle.cert"


@pytest.fixture(scope="module")
def running(program: Program):
    """A desk whose client is let in."""
    with desk(program, NET, CERT) as one:
        assert "<h1>triangle</h1>" in one.enter()
        yield one


def raw(port: int, text: bytes) -> str:
    """What comes back for bytes."""
    with socket.create_connection(("127.0.0.1", port), timeout=60) as line:
        line.sendall(text)
        parts = []
        try:
            while part := line.recv(65536):
                parts.append(part)
        except ConnectionResetError:
            pass
    return b"".join(parts).decode()


def asked(running: Running, head: str, method: str = "GET", path: str = "/", cookie: bool = True, host: str | None = None,
          body: str = "") -> tuple[int, str]:
    """Status and body of a request that is written by hand."""
    jar = next(one for one in running.client.handlers if hasattr(one, "cookiejar")).cookiejar
    given = "".join(f"Cookie: {one.name}={one.value}\r\n" for one in jar) if cookie else ""
    name = f"127.0.0.1:{running.port}" if host is None else host
    size = f"Content-Type: application/x-www-form-urlencoded\r\nContent-Length: {len(body)}\r\n" if body else ""
    text = raw(running.port, f"{method} {path} HTTP/1.1\r\nHost: {name}\r\n{given}{head}{size}Connection: close\r\n\r\n{body}".encode())
    front, _, rest = text.partition("\r\n\r\n")
    wanted = ("Content-Security-Policy: default-src 'self'; object-src 'none'", "Referrer-Policy: no-referrer",
              "X-Content-Type-Options: nosniff")
    assert all(line in front for line in wanted)
    assert "frame-ancestors 'none'" in front and "Server:" not in front
    return int(front.split()[1]), rest


def own(running: Running) -> str:
    """The header of its own pages."""
    return f"Origin: {running.base}\r\n"


def test_a_request_of_its_own_page_is_answered(running: Running):
    assert asked(running, "")[0] == 200 and asked(running, own(running))[0] == 200
    assert asked(running, own(running), "POST", "/edit", body="link=0&what=double")[0] == 200
    assert asked(running, own(running) + "Sec-Fetch-Site: same-origin\r\n", "POST", "/undo", body="x=1")[0] == 200


@pytest.mark.parametrize("host", [
    "localhost:{port}", "127.0.0.1", "evil.example", "evil.example:{port}", "127.0.0.1:1", "[::1]:{port}", ""])
def test_another_name_is_refused(running: Running, host: str):
    status, line = asked(running, "", host=host.format(port=running.port))
    assert (status, line) == (403, f"this desk answers under {running.base}/ alone\n")


@pytest.mark.parametrize("head", [
    "Origin: null\r\n", "Origin: http://evil.example\r\n", "Origin: http://127.0.0.1:1\r\n", "Origin: https://127.0.0.1:{port}\r\n", "",
    "Sec-Fetch-Site: cross-site\r\nOrigin: {base}\r\n", "Sec-Fetch-Site: same-site\r\nOrigin: {base}\r\n"])
def test_a_change_from_another_page_is_refused(running: Running, head: str):
    before = running.news()
    status, line = asked(running, head.format(port=running.port, base=running.base), "POST", "/edit", body="link=0&what=close")
    assert status == 403 and line.count("\n") == 1 and running.news() == before


def test_without_the_cookie_nothing_is_shown(running: Running):
    for path, head in (("/", ""), ("/desk.js", ""), ("/out/certificate", ""), ("/edit", own(running))):
        method, body = ("POST", "link=0&what=close") if path == "/edit" else ("GET", "")
        status, line = asked(running, head, method, path, cookie=False, body=body)
        assert (status, line) == (403, "this desk lets in the browser that opened its first address, which its terminal shows\n")
    for name in ("mcf-desk-1", f"mcf-desk-{running.port}"):
        assert asked(running, f"Cookie: {name}=x\r\n", cookie=False)[0] == 403


def test_an_address_lets_one_browser_in_and_the_terminal_has_the_next(program: Program):
    with desk(program, NET, CERT) as one:
        first, second = one, Running(one.process, one.address, one.port)
        assert "<h1>triangle</h1>" in first.enter() and "<h1>triangle</h1>" in first.enter()
        status, line = second.get(one.address)
        assert status == 403 and line.startswith("this address was used already") and line.count("\n") == 1
        assert second.get("/?token=" + "x" * 43)[0] == 403
        assert one.process.stdout is not None
        told = one.process.stdout.readline()
        assert told.startswith("desk: http://127.0.0.1:") and told.endswith(" (for another browser)\n")
        assert second.get(told.split()[1])[0] == 200 and second.news() == first.news()
        first.post("/edit", link=0, what="close")
        second.post("/edit", link=0, what="set", capacity="20")
        assert first.bounds() == second.bounds() and "set, 0 to 20" in first.news()
        second.post("/undo")
        assert "closed, 10 to 0" in first.news()


def test_the_cookie_is_for_this_site_alone_and_scripts_do_not_see_it(program: Program):
    with desk(program, NET, CERT) as one:
        path = one.address.removeprefix(one.base)
        head = raw(one.port, f"GET {path} HTTP/1.1\r\nHost: 127.0.0.1:{one.port}\r\nConnection: close\r\n\r\n".encode())
        assert head.startswith("HTTP/1.1 303 ") and "\r\nLocation: /\r\n" in head
        assert re.search(rf"\r\nSet-Cookie: mcf-desk-{one.port}=[\w-]{{43}}; Path=/; HttpOnly; SameSite=Strict\r\n", head)


def test_what_is_too_much_is_refused_in_one_line(running: Running):
    before = running.news()
    head = f"POST /edit HTTP/1.1\r\nHost: 127.0.0.1:{running.port}\r\n{own(running)}"
    for rest in ("Content-Length: 1048577\r\n\r\n", f"Transfer-Encoding: chunked\r\n\r\n100001\r\n{'x' * 0x100001}\r\n0\r\n\r\n"):
        front, _, line = raw(running.port, (head + rest).encode()).partition("\r\n\r\n")
        assert front.startswith("HTTP/1.1 413 ") and line == "a request has at most 1 MB: nothing was changed\n"
        assert "X-Content-Type-Options: nosniff" in front
    get = f"GET / HTTP/1.1\r\nHost: 127.0.0.1:{running.port}\r\n"
    for rest, status in ((f"X: {'x' * 70_000}\r\n\r\n", " 431 "), ("no header\r\n\r\n", " 400 ")):
        front, _, line = raw(running.port, (get + rest).encode()).partition("\r\n\r\n")
        assert status in front.partition("\r\n")[0] and line.count("\n") == 1
    assert raw(running.port, b"\x16\x03\x01 nonsense\r\n\r\n").partition("\r\n\r\n")[2].count("\n") == 1 and running.news() == before
    status, text = running.post("/edit", link=0, what="set", capacity="9" * 900_000)
    assert status == 400 and text.count("\n") == 1 and len(text) < 300


@pytest.mark.parametrize("path", [
    "/../../../../etc/passwd", "/..%2f..%2f..%2fetc/passwd", "/out/../../README.md", "/out/script/../x", "/static/desk.js", "//etc/passwd",
    "/out/%00", "/templates/page.html", f"/out/{NET}", "/desk.js/../page.html", "/out/certificate?file=/etc/passwd&name=../../x"])
def test_no_path_of_a_request_is_opened(running: Running, path: str):
    status, text = asked(running, "", path=path)
    known = path.startswith("/out/certificate?")
    assert text.startswith("mcf-certificate ") if known else (status, text) == (404, "there is no such page here\n")


@pytest.mark.parametrize("method, path", [
    ("GET", "/edit"), ("POST", "/"), ("PUT", "/edit"), ("DELETE", "/undo"), ("OPTIONS", "/edit"), ("GET", "/undo"), ("TRACE", "/")])
def test_nothing_is_changed_by_another_method(running: Running, method: str, path: str):
    before = running.news()
    status, line = asked(running, own(running), method, path)
    assert status in (200, 405) and (status == 405 or method == "OPTIONS") and running.news() == before


@pytest.mark.parametrize("path", [
    "/news?seen=x", "/link?page_link=99", "/link?page_link=-1", "/growth?page_x=0", "/growth?page_x=x", "/growth?page_times=1000000",
    "/growth?page_x=1E99&page_times=50", "/links?sort=%3Cscript%3E&find=%3Cscript%3E", "/news?seen=99999999999",
    "/out/routing", "/out/both"])
def test_odd_questions_have_an_answer_in_words(running: Running, path: str):
    status, text = running.get(path)
    assert status in (200, 400) and "<script" not in text and "Traceback" not in text and "internal error" not in text


def test_it_listens_on_the_loopback_address_alone(running: Running):
    files = [file for file in (Path("/proc/net/tcp"), Path("/proc/net/tcp6")) if file.exists()]
    rows = [line.split() for file in files for line in file.read_text().splitlines()[1:]]
    listening = [row[1] for row in rows if row[3] == "0A" and row[1].endswith(f":{running.port:04X}")]
    assert listening == [f"0100007F:{running.port:04X}"]


def test_strangers_who_only_connect_keep_nobody_out(running: Running):
    lines = [socket.create_connection(("127.0.0.1", running.port)) for _ in range(600)]
    try:
        for line in lines[::2]:
            line.sendall(b"POST /edit HTTP/1.1\r\nHost: x\r\nContent-Length: 1000\r\n\r\nx")
        for line in lines[1::3]:
            line.sendall(b"GET / HTTP/1.1\r\nHost: ")
        with urllib.request.build_opener(Open).open(f"{running.base}/", timeout=60) as answer:
            assert answer.status == 403
        assert running.get("/")[0] == 200
        # (what says nothing is let go of, so that not even more of them keep others out for long)
        lines[1].settimeout(60)
        assert lines[1].recv(1) == b""
    finally:
        for line in lines:
            line.close()
