"""The file in which a study keeps what is done: one row for each scenario, and the networks and matrices that they are of.

It is a database of SQLite. What comes together is written in one transaction, so it stands whole or not at all, whatever ends the
study; rows of several studies may stand in one file, since a row's key is a hash of all that it asks.
"""

from __future__ import annotations

import json
import os
import sqlite3
import zlib
from collections.abc import Iterable, Iterator, Sequence
from contextlib import closing, contextmanager
from dataclasses import dataclass, replace
from fractions import Fraction
from pathlib import Path
from urllib.parse import quote

from ..errors import TextError
from ..ranges import Range
from .scenarios import Asked, Change, Scenario, digest_of
from .work import FAILED, NOTHING, REFUSED, Found, Row

APPLICATION = 0x6D636673
FORM = 2
_WAIT = 60.0
_AT_ONCE = 500
_FRONT = b"SQLite format 3\0"
_TABLES = """
CREATE TABLE texts (digest TEXT PRIMARY KEY, data BLOB NOT NULL) WITHOUT ROWID;
CREATE TABLE rows (
    key TEXT PRIMARY KEY, network TEXT NOT NULL, matrix TEXT NOT NULL, asked TEXT NOT NULL,
    verdict TEXT NOT NULL, line TEXT NOT NULL, lower TEXT NOT NULL, upper TEXT NOT NULL,
    rest_verdict TEXT, rest_line TEXT, rest_lower TEXT, rest_upper TEXT,
    left_out TEXT NOT NULL, cut TEXT NOT NULL, seconds REAL NOT NULL, place TEXT NOT NULL, version TEXT NOT NULL,
    rechecked INTEGER NOT NULL, certificate BLOB, rest_certificate BLOB, note TEXT, rest_note TEXT);
"""
_NOTES = """
ALTER TABLE rows ADD COLUMN note TEXT;
ALTER TABLE rows ADD COLUMN rest_note TEXT;
"""
_COLUMNS = ("key", "network", "matrix", "asked", "verdict", "line", "lower", "upper", "rest_verdict", "rest_line", "rest_lower",
            "rest_upper", "note", "rest_note", "left_out", "cut", "seconds", "place", "version", "rechecked", "certificate", "rest_certificate")
_FOUND = ("network", "matrix", "asked", "verdict", "line", "lower", "upper", "note", "left_out", "cut", "seconds", "place", "version",
          "certificate")
_REST = ("rest_verdict", "rest_line", "rest_lower", "rest_upper", "rest_note", "rest_certificate")
# what stands there stays where the new one has no answer, or no certificate and this has one
_OLD_FOUND = (f"(rows.verdict <> '{FAILED}' AND (excluded.verdict = '{FAILED}' OR "
              "(rows.certificate IS NOT NULL AND excluded.certificate IS NULL)))")
_OLD_REST = (f"(coalesce(rows.rest_verdict, '{FAILED}') <> '{FAILED}' AND (coalesce(excluded.rest_verdict, '{FAILED}') = '{FAILED}' OR "
             "(rows.rest_certificate IS NOT NULL AND excluded.rest_certificate IS NULL)))")
_RECHECKED = (f"CASE WHEN {_OLD_FOUND} AND {_OLD_REST} THEN rows.rechecked WHEN {_OLD_FOUND} OR {_OLD_REST} THEN "
              "min(rows.rechecked, excluded.rechecked) ELSE excluded.rechecked END")
_SETS = [f"{name} = CASE WHEN {old} THEN rows.{name} ELSE excluded.{name} END"
         for names, old in ((_FOUND, _OLD_FOUND), (_REST, _OLD_REST)) for name in names]
_ADD = (f"INSERT INTO rows ({', '.join(_COLUMNS)}) VALUES ({', '.join('?' * len(_COLUMNS))}) ON CONFLICT (key) DO UPDATE SET "
        + ", ".join([*_SETS, f"rechecked = {_RECHECKED}"]))


@dataclass(frozen=True)
class Wanted:
    """What a row has to have, so that its scenario is done."""

    keep: bool = False
    without_cut: bool = False
    recheck: bool = False


@dataclass(frozen=True)
class Due:
    """A scenario that is not done, whether its certificates are kept, and whether its demands that have a way are solved for alone too."""

    scenario: Scenario
    keep: bool
    without_cut: bool


@dataclass(frozen=True)
class Kept:
    """A row as it stands in the file, with the network and the matrix that it is of."""

    row: Row
    network: str
    matrix: str
    asked: dict[str, object]

    @property
    def change(self) -> Change:
        """What is other than in the network."""
        links, nodes, capacities = (self.asked[name] for name in ("links", "nodes", "capacities"))
        assert isinstance(links, list) and isinstance(nodes, list) and isinstance(capacities, list)
        return Change("", "", tuple(links), tuple(nodes), tuple((link, capacity) for link, capacity in capacities))


class Store:
    """The file of a study."""

    def __init__(self, path: str, create: bool = True) -> None:
        """Opens it, or makes it; TextError where it is something else."""
        self.path = path
        if not create and not Path(path).is_file():
            raise TextError(f"{path}: there is no such file")
        with self._told():
            _require_database(path)
            self._base = _changed(path) if create or _may_change(path) else _only_read(path)
            try:
                self._begin(create)
            except BaseException:
                self._base.close()
                raise

    def _begin(self, create: bool) -> None:
        """Looks what is in the file, which is changed only where it may be; one of form 1 that may only be read is changed in a copy in memory."""
        may = create or _may_change(self.path)
        if not may and self._marks()[:2] == (APPLICATION, 1):
            file, self._base = self._base, sqlite3.connect(":memory:", isolation_level=None)
            with closing(file):
                file.backup(self._base)
            may = True
        self._require_own(create, "BEGIN IMMEDIATE" if may else "BEGIN")
        if may:
            self._base.execute("PRAGMA journal_mode = WAL")
            self._base.execute("PRAGMA synchronous = FULL")

    def _marks(self) -> tuple[int, int, int]:
        """What the file says it is: its application, its form, and how often its tables were changed."""
        application, form, tables = (self._base.execute(f"PRAGMA {name}").fetchone()[0] for name in ("application_id", "user_version",
                                                                                                   "schema_version"))
        return application, form, tables

    def _require_own(self, create: bool, begin: str) -> None:
        """Makes the tables in a file that has nothing, and columns of notes in one of form 1; TextError where it has something else."""
        self._base.execute(begin)
        try:
            application, form, tables = self._marks()
            if not tables and not application and create:
                self._change(_TABLES, f"PRAGMA application_id = {APPLICATION}")
            elif (application, form) == (APPLICATION, 1):
                self._change(_NOTES)
            elif application != APPLICATION or form != FORM:
                what = "a study of another form" if application == APPLICATION else "a database, and none of a study"
                raise TextError(f"{self.path}: is {what}; name another file by --store")
        except BaseException:
            if self._base.in_transaction:
                self._base.execute("ROLLBACK")
            raise
        self._base.execute("COMMIT")

    def _change(self, statements: str, *more: str) -> None:
        """Changes the tables, which are of the present form then."""
        for statement in (*statements.split(";\n"), *more, f"PRAGMA user_version = {FORM}"):
            self._base.execute(statement)

    @contextmanager
    def _told(self) -> Iterator[None]:
        """Faults of the database as one line."""
        try:
            yield
        except (sqlite3.Error, UnicodeError, OSError) as fault:
            known = {"database or disk is full": "the disk is full", "file is not a database": "is no file of a study",
                     "attempt to write a readonly database": "may only be read",
                     "unable to open database file": "cannot be opened: its folder is not there or may only be read, or a study is at work on it"}
            raise TextError(f"{self.path}: {known.get(str(fault), getattr(fault, 'strerror', None) or str(fault))}") from None

    @contextmanager
    def _read(self) -> Iterator[None]:
        """What was read and is not what was written, as one line too."""
        try:
            with self._told():
                yield
        except TextError:
            raise
        except (zlib.error, ArithmeticError, AssertionError, LookupError, TypeError, ValueError) as fault:
            raise TextError(f"{self.path}: is damaged ({fault}); name another file by --store") from None

    @contextmanager
    def _transaction(self) -> Iterator[None]:
        """All or nothing."""
        with self._told():
            self._base.execute("BEGIN IMMEDIATE")
            try:
                yield
            except BaseException:
                if self._base.in_transaction:
                    self._base.execute("ROLLBACK")
                raise
            self._base.execute("COMMIT")

    def close(self) -> None:
        """Closes the file."""
        with self._told():
            self._base.close()

    def keep_texts(self, texts: Iterable[tuple[str, str]]) -> None:
        """Keeps texts by their hashes."""
        with self._transaction():
            self._base.executemany("INSERT OR IGNORE INTO texts VALUES (?, ?)",
                                   ((digest, zlib.compress(text.encode("latin-1"))) for digest, text in texts))

    def text(self, digest: str) -> str:
        """The text of a hash."""
        with self._read():
            found = self._base.execute("SELECT data FROM texts WHERE digest = ?", (digest,)).fetchone()
            if found is None:
                raise TextError(f"{self.path}: has no text {digest[:12]}")
            text = zlib.decompress(found[0]).decode("latin-1")
            if digest_of(text) != digest:
                raise ValueError(f"the text {digest[:12]} is another one")
            return text

    def add(self, rows: Iterable[tuple[Scenario, Row, bool]], network: str, asked: Asked) -> None:
        """Writes rows, all or none of them; with each is told whether it was judged again. Of one that stands there nothing is lost."""
        values = [_values(scenario, row, rechecked, network, asked) for scenario, row, rechecked in rows]
        with self._transaction():
            self._base.executemany(_ADD, values)

    def left(self, scenarios: Sequence[Scenario], wanted: Wanted) -> list[Due]:
        """The scenarios that are not done, in their order; a new row has what is wanted, and what the old one has."""
        states: dict[str, tuple[bool, bool, bool]] = {}
        for part in _parts([scenario.key for scenario in scenarios]):
            places = ", ".join("?" * len(part))
            query = f"SELECT key, {_is_done(wanted)}, certificate IS NOT NULL, rest_verdict IS NOT NULL FROM rows WHERE key IN ({places})"
            with self._told():
                states |= {key: (bool(done), bool(has), bool(rest)) for key, done, has, rest in self._base.execute(query, part)}
        found = ((scenario, *states.get(scenario.key, (False, False, False))) for scenario in scenarios)
        keep = wanted.keep or wanted.recheck
        return [Due(scenario, keep or has, wanted.without_cut or rest) for scenario, done, has, rest in found if not done]

    def forget_judged(self, scenarios: Sequence[Scenario]) -> None:
        """Takes from the rows of scenarios the marks that they were judged again, which anybody may have set: this run judges them anew."""
        for part in _parts([scenario.key for scenario in scenarios]):
            with self._transaction():
                self._base.execute(f"UPDATE rows SET rechecked = 0 WHERE rechecked AND key IN ({', '.join('?' * len(part))})", part)

    def unchecked(self, scenarios: Sequence[Scenario], wanted: Wanted) -> list[Scenario]:
        """The scenarios that lack nothing but that their certificates, which are kept, be judged again."""
        due = f"{_is_done(replace(wanted, keep=True, recheck=False))} AND verdict <> '{REFUSED}' AND NOT rechecked"
        found: set[str] = set()
        for part in _parts([scenario.key for scenario in scenarios]):
            with self._told():
                found |= {key for key, in self._base.execute(f"SELECT key FROM rows WHERE key IN ({', '.join('?' * len(part))}) AND {due}", part)}
        return [scenario for scenario in scenarios if scenario.key in found]

    def rows(self, keys: Sequence[str], certificates: bool = False) -> dict[str, Kept]:
        """The rows of these keys, without their certificates unless these are wanted."""
        found: dict[str, Kept] = {}
        names = _COLUMNS if certificates else _COLUMNS[:-2]
        for part in _parts(keys):
            with self._read():
                places = ", ".join("?" * len(part))
                for values in self._base.execute(f"SELECT {', '.join(names)} FROM rows WHERE key IN ({places})", part):
                    kept = _kept(dict(zip(names, values)))
                    found[kept.row.key] = kept
        return found

    def keys(self, front: str) -> list[str]:
        """The keys that begin so, at most two."""
        if not front.isascii():
            return []
        with self._told():
            return [key for key, in self._base.execute("SELECT key FROM rows WHERE substr(key, 1, ?) = ? LIMIT 2", (len(front), front))]


def _may_change(path: str) -> bool:
    """Whether a file and its folder, where the database keeps its log, may be written."""
    place = os.path.realpath(path)
    return os.access(place, os.W_OK) and os.access(os.path.dirname(place), os.W_OK)


def _changed(path: str) -> sqlite3.Connection:
    """The database of a file, for reading and writing."""
    # (a name as :memory: or file:x stands for something else where it is no whole path)
    return sqlite3.connect(os.path.abspath(path), timeout=_WAIT, isolation_level=None)


def _only_read(path: str) -> sqlite3.Connection:
    """The database of a file that may only be read, and in whose folder no log can be made; where there is one, it is read too."""
    place = os.path.realpath(path)
    log = f"{place}-wal"
    has_log = os.path.exists(log) and (os.path.getsize(log) > 0 or os.path.exists(f"{place}-shm"))
    mode = "mode=ro" if has_log else "mode=ro&immutable=1"
    return sqlite3.connect(f"file:{quote(os.fsencode(place))}?{mode}", timeout=_WAIT, isolation_level=None, uri=True)


def _require_database(path: str) -> None:
    """DatabaseError where a file has something that is no database; one of a few bytes would be taken for an empty one."""
    if os.path.isfile(path):
        with open(path, "rb") as file:
            front = file.read(len(_FRONT))
        if front not in (b"", _FRONT):
            raise sqlite3.DatabaseError("file is not a database")


def _parts(keys: Sequence[str]) -> Iterator[Sequence[str]]:
    """Keys in parts that one statement takes."""
    for at in range(0, len(keys), _AT_ONCE):
        yield keys[at:at + _AT_ONCE]


def _is_done(wanted: Wanted) -> str:
    """The condition of a row that has all that is wanted."""
    due = [f"verdict <> '{FAILED}'"]
    if wanted.keep:
        due.append(f"(verdict = '{REFUSED}' OR certificate IS NOT NULL)")
        due.append(f"(coalesce(rest_verdict, '{NOTHING}') IN ('{NOTHING}', '{REFUSED}', '{FAILED}') OR rest_certificate IS NOT NULL)")
    if wanted.without_cut:
        due.append(f"(cut = '[]' OR (rest_verdict IS NOT NULL AND rest_verdict <> '{FAILED}'))")
    if wanted.recheck:
        due.append(f"(verdict = '{REFUSED}' OR rechecked)")
    return " AND ".join(due)


def _values(scenario: Scenario, row: Row, rechecked: bool, network: str, asked: Asked) -> tuple[object, ...]:
    """The values of a row, in the order of the columns."""
    rest = row.rest
    told = json.dumps({**scenario.change.asked, "routing": scenario.routing, "options": asked.of(scenario.routing)})
    return (row.key, network, scenario.matrix.digest, told, row.found.verdict, row.found.line, row.found.lower, row.found.upper,
            *((rest.verdict, rest.line, rest.lower, rest.upper) if rest else (None,) * 4), row.found.note, rest.note if rest else None,
            json.dumps(row.left_out), json.dumps(row.cut), row.seconds, row.place, row.version, int(rechecked), row.found.certificate,
            rest.certificate if rest else None)


def _kept(named: dict[str, object]) -> Kept:
    """The row of values by the names of their columns."""
    def word(name: str) -> str:
        """A value that is a text."""
        return str(named[name])

    def blob(name: str) -> bytes | None:
        """A certificate, where there is one; zlib.error where it is damaged."""
        value = named.get(name)
        if not isinstance(value, bytes):
            return None
        zlib.decompress(value)
        return value

    def note(name: str) -> str | None:
        """What is to be said of a routing by a rule; None in a row of form 1."""
        return None if named[name] is None else word(name)

    found = Found(word("verdict"), word("line"), word("lower"), word("upper"), blob("certificate"), note("note"))
    rest = None
    if named["rest_verdict"] is not None:
        rest = Found(word("rest_verdict"), word("rest_line"), word("rest_lower"), word("rest_upper"), blob("rest_certificate"),
                     note("rest_note"))
    for one in (found, rest):
        _require_bounds(one)
    row = Row(word("key"), found, rest, tuple(json.loads(word("left_out"))), tuple(json.loads(word("cut"))), float(word("seconds")),
              word("place"), word("version"))
    kept = Kept(row, word("network"), word("matrix"), json.loads(word("asked")))
    # (its change is made of what was asked, or that is damaged)
    kept.change
    return kept


def _require_bounds(found: Found | None) -> None:
    """ArithmeticError where the bounds of a row contradict each other, and ValueError where they are no numbers."""
    if found is not None and (found.lower or found.upper):
        lower = Fraction(found.lower)
        try:
            Range(lower, Fraction(found.upper) if found.upper else lower)
        except TextError as why:
            raise ArithmeticError(str(why)) from None
