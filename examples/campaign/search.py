#!/usr/bin/env python3
"""Searches one file of a campaign, and keeps its answer.

usage: search.py FILE RESULT [WORD..]

Runs `bendrika outcomes -q --json WORD.. FILE`, and writes RESULT: one object with the file, the status, what was printed, and a
key of all that the answer depends on. A RESULT with the same key is left as it is, so nothing is searched twice. It is written
whole or not at all. A search that ends without an answer (no memory, a signal) leaves no RESULT, and its status is 1: the next
campaign searches this file again. BENDRIKA names the program."""

import hashlib
import json
import os
import subprocess
import sys
from pathlib import Path

# The statuses of an answer: all conditions hold, one fails, the file or a condition is rejected, too many states.
ANSWERS = (0, 1, 2, 4)


def main():
    program = os.environ.get("BENDRIKA", "bendrika")
    file, result, words = Path(sys.argv[1]), Path(sys.argv[2]), sys.argv[3:]
    version = subprocess.run([program, "--version"], capture_output=True, text=True, check=True).stdout
    key = hashlib.sha256("\0".join([version, str(file), *words, ""]).encode() + file.read_bytes()).hexdigest()
    if result.is_file() and json.loads(result.read_bytes())["key"] == key:
        result.touch()
        return
    ran = subprocess.run([program, "outcomes", "-q", "--json", *words, "--", file], capture_output=True, check=False)
    if ran.returncode not in ANSWERS:
        sys.exit(f"search.py: {file}: no answer, status {ran.returncode}: {ran.stderr.decode(errors='replace').strip()}")
    objects = [json.loads(line) for line in ran.stdout.splitlines()]
    answer = {
        "key": key,
        "file": str(file),
        "status": ran.returncode,
        "conditions": [it for it in objects if "condition" in it],
        "end": next((it for it in objects if "complete" in it), {}),
        "message": ran.stderr.decode(errors="replace"),
    }
    unfinished = result.with_name(f"{result.name}.{os.getpid()}")
    unfinished.write_text(json.dumps(answer, indent=1) + "\n", encoding="utf-8")
    unfinished.replace(result)


main()
