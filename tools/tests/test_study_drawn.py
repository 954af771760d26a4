"""Studies of drawn networks: each row beside a solve of the network that was changed by hand, and beside the optimum of another program."""

from __future__ import annotations

import tempfile
from dataclasses import replace
from fractions import Fraction
from pathlib import Path

import pytest

pytest.importorskip("hypothesis")

from hypothesis import given, settings
from hypothesis import strategies as st

from drawn import greatest, small_networks
from mcf import Program, save_text, write_network
from mcf.network import Network
from mcf.studies import run
from mcf.studies.changes import Fibres, all_changes
from mcf.studies.scenarios import Asked, Ground, Matrix, Plan, demand_rows, digest_of
from mcf.studies.store import Store, Wanted


def by_hand(network: Network, links: set[str], nodes: set[str]) -> Network:
    """The network with some links closed and some nodes lost."""
    closed = tuple(replace(link, capacity="0") if link.id in links or {link.source, link.target} & nodes else link for link in network.links)
    return replace(network, links=closed, demands=tuple(row for row in network.demands if not {row.source, row.target} & nodes))


@settings(max_examples=12)
@given(small_networks(), st.sampled_from(["undirected", "directed"]))
def test_each_change_is_as_one_that_is_solved_alone(program: Program, network: Network, mode: str) -> None:
    plan = Plan(Ground.of(network), [Matrix("", digest_of(demand_rows(network.demands)))], all_changes(network, ("links", "nodes"), (), Fibres(network), True),
                ("best",), Asked(mode))
    with tempfile.TemporaryDirectory() as room:
        store = Store(f"{room}/study.db")
        store.keep_texts([(plan.matrices[0].digest, demand_rows(network.demands))])
        run.run(plan, store, Wanted(), run.Place(1, None, program.path, program.path, True), print)
        for scenario in plan:
            row = store.rows([scenario.key])[scenario.key].row
            other = by_hand(network, set(scenario.change.links) if scenario.change.kind == "link" else set(), set(scenario.change.nodes))
            save_text(f"{room}/net", write_network(other))
            if not other.demands:
                assert row.found.verdict == "refused"
                continue
            save_text(f"{room}/cert", program.solve(f"{room}/net", "--workers", "1", "--links", mode))
            line = program.check(f"{room}/net", f"{room}/cert").line
            assert row.found.line == line and row.left_out == tuple(one.id for one in network.demands if one not in other.demands)
            best = greatest(other, mode)
            assert float(Fraction(row.found.lower)) <= best + 1e-6 and best - 1e-6 <= float(Fraction(row.found.upper)) and bool(row.cut) == (best < 1e-9)
        store.close()
        assert not Path(room, "study.db-wal").exists()
