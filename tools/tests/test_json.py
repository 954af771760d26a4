"""`--json`: each end of each tool is one object, which its schema describes and docs/study/json.md explains."""

from __future__ import annotations

import json
import re
import subprocess
from collections.abc import Iterator
from fractions import Fraction
from pathlib import Path
from typing import Any

import pytest

from jsoned import fractions_in, require_valid
from mcf import Certificate, Network, Program, jsons
from mcf.jsons import SCHEMAS, plain, schema
from mcf.ranges import Range
from mcf.version import commit_of

jsonschema = pytest.importorskip("jsonschema", reason="python3-jsonschema is missing: tools/setup --tests")

ROOT = Path(__file__).resolve().parents[2]
EXAMPLES = ROOT / "examples"
TRIANGLE = str(EXAMPLES / "triangle.net"), str(EXAMPLES / "triangle.cert")
SHARED = ("common", "tables")
API = ("answer", "cases")
TOOLS = sorted(file.stem for file in SCHEMAS.glob("*.json") if file.stem not in (*SHARED, *API))
# one run of each tool, with all that it may say: files to be written are in the folder that the test is in
RUNS = [
    ("certify", [TRIANGLE[0], "--output", "out"], 0), ("certify", [TRIANGLE[0], "--output", "out", "--gap", "0"], 0),
    ("certify", [str(EXAMPLES / "in-a-row.net"), "--kind", "throughput", "--output", "out"], 0),
    ("convert", [TRIANGLE[0], "out.net", "--close", "AB", "--scale", "1.5"], 0),
    ("convert", [str(EXAMPLES / "alps.graphml"), "out.csv", "--capacity-default", "10"], 0),
    ("convert", [TRIANGLE[0], "out.list", "--quiet"], 0),
    ("report", [*TRIANGLE, "--html", "a.html", "--csv", "a.csv", "--paths", "p.csv"], 0),
    ("report", [TRIANGLE[0], str(EXAMPLES / "triangle.routing"), TRIANGLE[1]], 0),
    ("report", [str(EXAMPLES / "detours.net"), str(EXAMPLES / "detours.hops")], 0),
    ("report", [str(EXAMPLES / "in-a-row.net"), str(EXAMPLES / "in-a-row.throughput")], 0),
    ("route", [TRIANGLE[0], "--by", "ecmp", "--output", "out"], 0),
    ("route", [TRIANGLE[0], "--by", "hops", "--no-best", "--output", "out"], 0),
    ("show", [TRIANGLE[0]], 0), ("show", [*TRIANGLE, "--csv", "a.csv"], 0), ("show", [TRIANGLE[0], str(EXAMPLES / "triangle.routing")], 0),
    ("show", [str(EXAMPLES / "polska.net")], 0), ("show", [str(EXAMPLES / "detours.net"), str(EXAMPLES / "detours.hops")], 0),
    ("show", [str(EXAMPLES / "in-a-row.net"), str(EXAMPLES / "in-a-row.throughput")], 0),
    ("study", [TRIANGLE[0], "--failures", "links,nodes", "--grow", "1,1.5", "--routing", "best,hops", "--jobs", "1", "--without-cut", "--csv", "a.csv"], 1),
    ("survey", [*TRIANGLE, "--failures", "--double", "--grow", "1.5", "--jobs", "1"], 1), ("survey", [*TRIANGLE, "--grow", "1.2"], 0),
    ("survey", [*TRIANGLE, "--failures", "--quick", "--csv", "a.csv"], 1),
]  # fmt: skip


def ran(room: Path, tool: str, *words: str, program: Program | None = None) -> tuple[int, dict[str, Any], str]:
    """The status of a tool with --json, its object, which is as its schema says, and its standard error."""
    command = [str(ROOT / "tools" / tool), *words, "--json", *(["--mcf", program.path] if program and tool != "convert" else [])]
    done = subprocess.run(command, cwd=room, capture_output=True, check=False)
    said = json.loads(done.stdout)
    assert done.stdout.count(b"\n") == 1 and said["status"] == done.returncode
    require_valid(said, tool)
    return done.returncode, said, done.stderr.decode()


def properties_of(value: Any) -> Iterator[str]:
    """The names of all properties that a schema describes."""
    if isinstance(value, dict):
        yield from value.get("properties", {})
    if isinstance(value, (dict, list)):
        for one in value.values() if isinstance(value, dict) else value:
            yield from properties_of(one)


NAMES = [" ".join([tool, *(Path(word).name for word in words)]) for tool, words, _ in RUNS]


@pytest.mark.parametrize("tool, words, status", RUNS, ids=NAMES)
def test_what_a_tool_says_is_as_its_schema_says(program: Program, tmp_path: Path, tool: str, words: list[str], status: int) -> None:
    ended, said, errors = ran(tmp_path, tool, *words, program=program)
    assert (ended, errors) == (status, "") and said["tool"] == tool
    assert said["version"] == (ROOT / "VERSION").read_text().strip() and said["commit"] == commit_of(ROOT)
    numbers = list(fractions_in(said))
    assert all(number["float"] == float(Fraction(number["exact"])) for number in numbers)
    assert all(str(Fraction(number["exact"])) == number["exact"] for number in numbers)
    assert numbers or tool == "convert"


@pytest.mark.parametrize("words", [[*TRIANGLE, "--failures", "--grow", "1.5"], [*TRIANGLE, "--double", "--quick"]])
def test_sentences_are_those_that_are_said_without_it(program: Program, tmp_path: Path, words: list[str]) -> None:
    command = [str(ROOT / "tools/survey"), *words, "--mcf", program.path, "--quiet"]
    plainly = subprocess.run(command, capture_output=True, text=True, check=False)
    _, said, _ = ran(tmp_path, "survey", *words, program=program)
    assert said["sentences"] == plainly.stdout.splitlines()
    assert all(one["sentence"].lower() in said["sentences"][at].lower() for at, one in enumerate(said["surveys"]))


def test_notes_are_the_lines_of_standard_error(tmp_path: Path) -> None:
    words = [TRIANGLE[0], "out.net", "--close", "AB", "--scale", "1.5"]
    plainly = subprocess.run([str(ROOT / "tools/convert"), *words], cwd=tmp_path, capture_output=True, text=True, check=False)
    _, said, errors = ran(tmp_path, "convert", *words)
    assert said["notes"] == plainly.stderr.splitlines() == [f"{one['change']}: {one['text']}" for one in said["changes"]] and errors == ""


def test_bounds_are_those_of_the_check(program: Program, tmp_path: Path) -> None:
    _, said, _ = ran(tmp_path, "certify", TRIANGLE[0], "--output", "out", program=program)
    assert said["judged"] == program.check(TRIANGLE[0], tmp_path / "out").line and said["bounds"]["upper"]["exact"] == "4/3"
    _, said, _ = ran(tmp_path, "report", *TRIANGLE, program=program)
    side = said["sides"][0]
    assert (side["lower"]["exact"], side["upper"]["exact"]) == ("40/31", "21641216983633917/16011870962042468")
    assert sum(Fraction(row["share"]["exact"]) for row in side["bottleneck"]) == 1
    assert {row["link"]: row["load"]["exact"] for row in side["links"]}["AB"] == "31/4"


def test_a_batch_has_a_row_for_each_matrix(program: Program, tmp_path: Path) -> None:
    rows = "  A_to_B ( A B ) 1 {0} UNLIMITED\n  A_to_C ( A C ) 1 {0} UNLIMITED\n"
    (tmp_path / "day.list").write_text("".join(f"{name} (\n{rows.format(amount)})\n" for name, amount in (("noon", 5), ("night", 9))))
    (tmp_path / "day.certs").write_text(program.ask("batch", TRIANGLE[0], str(tmp_path / "day.list"), statuses=(0, 1)))
    _, said, _ = ran(tmp_path, "report", TRIANGLE[0], "day.certs", "--list", "day.list", program=program)
    rows = [(row["matrix"], row["amount"]["exact"], row["fits"]) for row in said["matrices"]]
    assert rows == [("noon", "10", "yes"), ("night", "18", "no")]
    assert said["sentences"][0].startswith("All demands fit in 1 of 2 matrices, not in 1.") and said["without"] == []


@pytest.mark.parametrize("tool, words, error", [
    ("certify", [], {"kind": "usage", "file": None}), ("certify", [TRIANGLE[0]], {"kind": "usage"}),
    ("route", [TRIANGLE[0], "--by", "hops", "--output", "/dev/stdout"], {"kind": "usage"}),
    ("survey", [*TRIANGLE, "--failures", "--csv", "-"], {"kind": "usage"}),
    ("convert", [TRIANGLE[0], "-", "--to", "net"], {"kind": "usage"}),
    ("report", [*TRIANGLE, "--html", "-"], {"kind": "usage"}), ("release", ["nothing"], {"kind": "usage"}),
    ("report", ["none.net", TRIANGLE[1]], {"kind": "file", "file": "none.net"}),
    ("survey", ["none.net", TRIANGLE[1], "--failures"], {"kind": "file", "file": "none.net"}),
    ("certify", ["none.net", "--output", "out"], {"kind": "file", "file": "none.net"}),
    ("convert", ["bad.net", "out.net"], {"kind": "text", "file": "bad.net", "line": 9}),
    ("report", ["bad.net", TRIANGLE[1]], {"kind": "refused", "code": "N7", "file": "bad.net", "line": 9}),
    ("survey", ["bad.net", TRIANGLE[1], "--failures"], {"kind": "refused", "code": "N7", "file": "bad.net", "line": 9}),
    ("route", ["bad.net", "--by", "hops", "--output", "out"], {"kind": "refused", "code": "N7", "file": "bad.net", "line": 9}),
    ("show", ["bad.net"], {"kind": "refused", "code": "N7", "file": "bad.net", "line": 9}),
    ("show", [TRIANGLE[0], "bad.net"], {"kind": "text", "file": "bad.net"}), ("show", ["-", "-"], {"kind": "usage"}),
    ("report", [TRIANGLE[0], "bad.cert"], {"kind": "invalid", "code": "C3", "file": "bad.cert", "line": None}),
    ("survey", [TRIANGLE[0], "bad.net", "--failures"], {"kind": "refused", "code": "K1", "file": "bad.net", "line": 1}),
    ("convert", [TRIANGLE[0], "no/where.net"], {"kind": "file", "file": "no/where.net"}),
    ("report", [*TRIANGLE, "--mcf", "/no/where"], {"kind": "program", "file": "/no/where"}),
])  # fmt: skip
def test_trouble_is_told_in_the_object(program: Program, tmp_path: Path, tool: str, words: list[str], error: dict[str, Any]) -> None:
    (tmp_path / "bad.net").write_text(Path(TRIANGLE[0]).read_text().replace("AB ( A B ) 10", "AB ( A B ) x10"))
    (tmp_path / "bad.cert").write_text(Path(TRIANGLE[1]).read_text().replace("scale 10 372", "scale 11 372").replace("480/372", "528/372"))
    status, said, errors = ran(tmp_path, tool, *words, program=None if "--mcf" in words or tool in ("release",) else program)
    assert status == 2 and said["error"] | error == said["error"]
    front = "tools/release" if tool == "release" else tool
    assert errors == f"{front}: {said['error']['sentence']}\n"
    assert not {"surveys", "sides", "output", "files"} & set(said) and not (tmp_path / "out").exists()


@pytest.mark.parametrize("name, text, line", [
    ("a line 3: b.csv", "source,target,capacity\nA,B,1\nA,B,x\n", 3), ("a.csv line 7: ", "source,target,capacity\nA,B\n", 2),
    ("a.graphml", "<graphml><graph edgedefault='directed'><node id='A'/>\n<edge source='A' target='B'/></graph></graphml>", 2),
    ("a.list line 1: b.csv", "", None)])
def test_the_place_of_a_refusal_is_data_whatever_the_file_is_called(tmp_path: Path, name: str, text: str, line: int | None) -> None:
    (tmp_path / name).write_text(text)
    status, said, _ = ran(tmp_path, "convert", name, "out.net", "--from", "graphml" if "graphml" in name else "csv", program=None)
    assert status == 2 and (said["error"]["file"], said["error"]["line"]) == (name, line)


def test_a_file_that_standard_output_goes_to_is_no_other_output(program: Program, tmp_path: Path) -> None:
    words = [str(ROOT / "tools/report"), *TRIANGLE, "--csv", "out", "--json", "--mcf", program.path]
    with open(tmp_path / "out", "wb") as out:
        done = subprocess.run(words, cwd=tmp_path, stdout=out, stderr=subprocess.PIPE, check=False)
    assert done.returncode == 2 and json.loads((tmp_path / "out").read_text())["error"]["kind"] == "usage"


def test_help_and_words_behind_two_dashes_are_no_objects(tmp_path: Path) -> None:
    done = subprocess.run([str(ROOT / "tools/survey"), "--json", "--help"], capture_output=True, text=True, check=False)
    assert (done.returncode, done.stderr) == (0, "") and done.stdout.startswith("usage: ") and '"tool"' not in done.stdout
    words = [str(ROOT / "tools/route"), "--by", "hops", "--mcf", "/no/where", "--", "--json"]
    done = subprocess.run(words, cwd=tmp_path, capture_output=True, text=True, check=False)
    assert (done.returncode, done.stdout) == (2, "") and done.stderr.startswith("route: /no/where: ")


def test_a_full_output_is_trouble(tmp_path: Path) -> None:
    with open("/dev/full", "w") as full:
        words = [str(ROOT / "tools/convert"), TRIANGLE[0], "out.net", "--json"]
        done = subprocess.run(words, cwd=tmp_path, stdout=full, stderr=subprocess.PIPE, text=True, check=False)
    assert (done.returncode, done.stderr) == (2, "convert: output: No space left on device\n")


def test_values_are_exact() -> None:
    third = Fraction(1, 3)
    assert plain(third) == {"exact": "1/3", "float": 1 / 3} and plain(Fraction(7)) == {"exact": "7", "float": 7.0}
    assert plain({"a": (Range(third, third), Path("x"), None, True)}) == {
        "a": [{"lower": plain(third), "upper": plain(third)}, "x", None, True]}
    assert json.loads(jsons.text_of({"name": "\udcff"})) == {"name": "\udcff"}


@pytest.mark.parametrize("tool", TOOLS)
def test_schemas_are_right_and_refuse_what_is_not_so(tool: str) -> None:
    validator = jsonschema.Draft202012Validator
    validator.check_schema(schema(tool))
    head = {"tool": tool, "version": "1.2.3", "commit": "x", "status": 2, "sentences": [], "notes": []}
    error = {"kind": "usage", "code": None, "file": None, "line": None, "sentence": "x"}
    assert validator(schema(tool)).is_valid({**head, "error": error})
    for wrong in ({**head}, {**head, "error": error, "other": 1}, {**head, "tool": "other", "error": error},
                  {**head, "error": {**error, "kind": "other"}}):  # fmt: skip
        assert not validator(schema(tool)).is_valid(wrong)


def test_json_of_the_api_is_as_its_schemas_say(program: Program, monkeypatch: pytest.MonkeyPatch) -> None:
    monkeypatch.setenv("MCF", program.path)
    network = Network.from_frames({"source": ["A", "B"], "target": ["B", "C"], "capacity": [3, 2.5]}, {("A", "C"): 2})
    solved = network.solve()
    answers = (solved, network.hops(), network.throughput(), network.route(), Certificate.from_text(solved.text, network))
    for said in (json.loads(answer.to_json(tables=tables)) for answer in answers for tables in (True, False)):
        require_valid(said, "answer")
        assert (said["version"], said["commit"]) == ((ROOT / "VERSION").read_text().strip(), commit_of(ROOT))
    for one in json.loads(network.batch({"a": {("A", "B"): 1}, "b": {("A", "C"): 1}}, progress=False).to_json()).values():
        require_valid(one, "answer")
    for cases in (network.sweep(solved), network.sweepsolve(), network.whatif(solved, [("close", "A-B")])):
        require_valid(json.loads(cases.to_json()), "cases")


def test_each_tool_has_a_schema() -> None:
    assert {file.stem for file in (ROOT / "python/mcf/cli").glob("*.py") if file.stem != "__init__"} <= set(TOOLS)


@pytest.mark.parametrize("name", [*SHARED, *API, *TOOLS])
def test_the_document_names_each_property(name: str) -> None:
    text = (ROOT / "docs/study/json.md").read_text()
    named = set(re.findall(r"`([A-Za-z0-9_]+)`", text))
    assert set(properties_of(json.loads((SCHEMAS / f"{name}.json").read_text()))) <= named
