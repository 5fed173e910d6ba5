"""Numbers for whoever watches a program: as Prometheus reads them, and as JSON."""

from __future__ import annotations

import json
from collections.abc import Iterator, Mapping, Sequence
from typing import Any, NamedTuple, Union

Number = Union[int, float]


class Metric(NamedTuple):
    """A number, or one for each of some labels."""

    name: str
    #: What it says.
    text: str
    #: `gauge`, or `counter` if it never goes down.
    kind: str
    samples: Sequence[tuple[Mapping[str, str], Number]]


def in_prometheus(metrics: Sequence[Metric]) -> str:
    """The text that Prometheus reads (its exposition format 0.0.4)."""
    return "".join(f"{line}\n" for metric in metrics for line in _lines(metric))


def _lines(metric: Metric) -> Iterator[str]:
    name = f"garterfossil_{metric.name}"
    yield f"# HELP {name} {metric.text}"
    yield f"# TYPE {name} {metric.kind}"
    for labels, value in metric.samples:
        shown = ",".join(f'{label}="{_escaped(text)}"' for label, text in labels.items())
        yield f"{name}{{{shown}}} {value}" if shown else f"{name} {value}"


def _escaped(text: str) -> str:
    return text.replace("\\", "\\\\").replace('"', '\\"').replace("\n", "\\n")


def in_json(found: Any) -> str:
    """What was found as a text of JSON."""
    return json.dumps(found, indent=1, sort_keys=True)


def shown(metrics: Sequence[Metric]) -> dict[str, list[dict[str, str | Number]]]:
    """The same as objects: by the name of each metric its values, with their labels."""
    return {metric.name: [{**labels, "value": value} for labels, value in metric.samples] for metric in metrics}


def of_counts(
    counts: Mapping[str, Number], manager: str, rolled_back: Mapping[str, int], databases: Sequence[Mapping[str, Any]]
) -> list[Metric]:
    """The metrics of a manager that is at work: its counts, and what stands at each database."""
    ended = [({"outcome": name}, counts[name]) for name in ("committed", "rolled_back", "unknown")]
    reasons = [({"code": code}, count) for code, count in rolled_back.items()]
    metrics = [
        Metric("manager", "The manager, by its name.", "gauge", [({"name": manager}, 1)]),
        Metric("transactions_total", "Transactions that ended, by how.", "counter", ended),
        Metric("rolled_back_total", "Those that were rolled back, by XA's reason.", "counter", reasons),
    ]
    for name, count, kind, text in (
        ("transactions_begun_total", "begun", "counter", "Transactions that began."),
        ("heuristic_total", "heuristic", "counter", "Transactions of which a branch ended otherwise."),
        ("transaction_seconds_total", "seconds", "counter", "For how long transactions were open, all together."),
        ("open", "open", "gauge", "Transactions that are open."),
        ("threads", "threads", "gauge", "Transactions that may be open at once."),
        ("waiting", "waiting", "gauge", "Transactions that wait until they may begin."),
        ("incarnation", "incarnation", "gauge", "The number of the session, among those of the log."),
    ):
        metrics.append(Metric(name, text, kind, [({}, counts[count])]))
    for name, kind, text in (
        ("owed", "gauge", "Ends of branches that the database was not told yet, or has not acknowledged."),
        ("prepared", "gauge", "Branches that this session has prepared, and that are not ended."),
        ("prepared_seconds", "gauge", "For how long the oldest of these is prepared."),
        ("recovery_due", "gauge", "1 while the database is to be recovered."),
        ("calls_total", "counter", "Calls that bring branches to their ends."),
        ("call_seconds_total", "counter", "How long these took, all together."),
    ):
        metrics.append(Metric(f"database_{name}", text, kind, [({"database": one["name"]}, one.get(name, 0)) for one in databases]))
    return metrics
