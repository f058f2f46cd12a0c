#!/usr/bin/env python3
"""Holds examples/deploy/alerts.yml and dashboard.json against the metrics that examples/report_metrics.py prints:
each one that they name is there, and the dashboard shows them all, from any data source.

    scripts/check_watching.py

The exit status is 1 where one differs. `promtool check rules` says besides whether the alerts can be read.
"""
import json
import re
import sys
from pathlib import Path

EXAMPLES = Path(__file__).resolve().parent.parent / "examples"
# Tests read the folder of the examples, so nothing is left in it.
sys.dont_write_bytecode = True
sys.path.append(str(EXAMPLES))

from report_metrics import METRICS  # noqa: E402

PRINTED = {metric for metric, _ in METRICS.values()}


def main() -> int:
    alerts = (EXAMPLES / "deploy/alerts.yml").read_text()
    board = json.loads((EXAMPLES / "deploy/dashboard.json").read_text())
    shown = {name for panel in board["panels"] for target in panel["targets"]
             for name in re.findall(r"\bilp_\w+", target["expr"])}
    named = shown | set(re.findall(r"\bilp_\w+", alerts))
    sources = set(re.findall(r'"uid": ("[^"]*"|null)', json.dumps(board))) - {'"${datasource}"', "null"}
    faults = [f"{name} is no metric of report_metrics.py" for name in sorted(named - PRINTED)]
    faults += [f"dashboard.json does not show {name}" for name in sorted(PRINTED - shown)]
    faults += [f"dashboard.json has the uid {uid} of one machine" for uid in sorted(sources)]
    print("\n".join(faults) or f"ok {len(PRINTED)} metrics")
    return 1 if faults else 0


if __name__ == "__main__":
    sys.exit(main())
