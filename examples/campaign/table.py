#!/usr/bin/env python3
"""Gathers the results of a campaign in one table, a row a file, with tabs between its columns.

usage: table.py RESULT.."""

import json
import sys
from pathlib import Path

ENDS = {0: "holds", 1: "fails", 2: "rejected", 4: "limit"}
COLUMNS = ("file", "end", "outcomes", "states", "condition", "why")


def row_of(result):
    """The columns of a file. The last two are the first condition that fails and a schedule that breaks it, or why there is no list."""
    end = result["end"]
    broken = next((it for it in result["conditions"] if not it["holds"]), {})
    why = json.dumps(broken["schedule"]) if broken else result["message"].partition("\n")[0]
    return (result["file"], ENDS[result["status"]], end.get("outcomes", ""), end.get("states", ""), broken.get("condition", ""), why)


def main():
    results = [json.loads(Path(it).read_bytes()) for it in sys.argv[1:]]
    for row in [COLUMNS, *sorted(map(row_of, results))]:
        print(*row, sep="\t")


main()
