"""What is asked of a study, in the words of its tool."""

from __future__ import annotations

from collections.abc import Sequence
from dataclasses import dataclass, field


@dataclass(frozen=True)
class Words:
    """The words of `tools/study`, by the names of their options."""

    net: str
    matrices: Sequence[str] = ()
    from_unit: str | None = None
    round: int | None = None
    failures: Sequence[str] = ()
    groups: str | None = None
    changes: str | None = None
    fibres: bool = False
    intact: bool = False
    grow: Sequence[str] = ("1",)
    routing: Sequence[str] = field(default=("best",))
    without_cut: bool = False
    links: str | None = None
    modules: str = "largest"
    gap: str | None = None
    phases: int | None = None
    step: int | None = None
    lengths: str = "hops"
    cost: str = "routing"
    paths: int = 4
    seconds: float = 300.0
    store: str = "study.db"
    jobs: int = 1
    scheduler: str | None = None
    keep: bool = False
    recheck: bool = False
    quiet: bool = False
    mcf: str | None = None
    csv: str | None = None
    html: str | None = None
    title: str | None = None
