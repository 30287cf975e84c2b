"""The page, one HTML file of the two packed modules, the examples, the style and the scripts of web/page.

The scripts are modules that import one another by name. The page has one script in its head, one in its body and one for its
workers, so the modules of each are joined, each as a function after those that it imports, without their `import` lines and the
words `export`. The same files give the same bytes."""

from __future__ import annotations

import base64
import gzip
import hashlib
import json
import pathlib
import re

ROOT = pathlib.Path(__file__).resolve().parent.parent.parent
WEB = ROOT / "web"
# The examples that come first in the list; the others follow by name.
FIRST = ["torn_block", "dual_port", "whole_modify", "lost_update", "lock", "handshake", "first_cycles"]
# The folders of the examples: what ends their names, the kind of input, and the group in the list.
FOLDERS = [
    ("examples", "toml", "file", ""),
    ("examples/tutorial", "toml", "file", "tutorial"),
    ("examples/litmus", "toml", "file", "litmus"),
    ("web/lines", "lines", "lines", ""),
]
IMPORT = re.compile(r"^import \{[^}]*\} from '([^']*)';\n", re.MULTILINE)
EXPORT = re.compile(r"^export ((?:async function|function|class|const) (\w+|\$))", re.MULTILINE)


def joined(entry: pathlib.Path) -> str:
    """A script of a module and of all that it imports. Each is a function that returns what the module exports."""
    texts: dict[pathlib.Path, str] = {}

    def add(path: pathlib.Path) -> None:
        text = path.read_text(encoding="utf-8")
        for name in IMPORT.findall(text):
            other = (path.parent / name).resolve()
            if other not in texts:
                add(other)
        names = ", ".join(name for _, name in EXPORT.findall(text))
        text = EXPORT.sub(r"\1", IMPORT.sub("", text))
        if re.search(r"^(?:import|export)\b", text, re.MULTILINE):
            raise ValueError(f"{path.name} has an import or an export that is not joined")
        texts[path] = f"const {{ {names} }} = (() => {{\n{text}return {{ {names} }};\n}})();\n" if names else f"(() => {{\n{text}}})();\n"

    add(entry.resolve())
    return "'use strict';\n{\n" + "".join(texts.values()) + "}\n"


def examples() -> list[dict[str, str]]:
    """The examples: name, kind, group, title and text of each."""
    found = []
    for folder, end, kind, group in FOLDERS:
        paths = sorted((ROOT / folder).glob(f"*.{end}"), key=lambda it: (FIRST.index(it.stem) if it.stem in FIRST else len(FIRST), it.stem))
        for path in paths:
            text = path.read_text(encoding="utf-8")
            title = next((line[1:].strip() for line in text.splitlines() if line.startswith("#") and not line.startswith("#:")), "")
            of = {"group": group} if group else {}
            found.append({"name": f"{group}/{path.stem}" if group else path.stem, "kind": kind, "title": title, "text": text, **of})
    return found


def page(packed: dict[str, bytes]) -> bytes:
    """The page with these modules, each packed by gzip."""
    def read(name: str) -> str:
        return (WEB / "page" / name).read_text(encoding="utf-8")

    scripts = {"early": joined(WEB / "page/early.mjs"), "script": joined(WEB / "page/main.mjs")}
    sums = ", ".join(f"{name}.wasm {hashlib.sha256(gzip.decompress(data)).hexdigest()[:16]}" for name, data in sorted(packed.items()))
    parts = {
        "hashes": " ".join(f"'sha256-{base64.b64encode(hashlib.sha256(it.encode()).digest()).decode()}'" for it in scripts.values()),
        "style": read("style.css"),
        "version": (ROOT / "VERSION").read_text(encoding="utf-8").strip(),
        "sums": f"{sums}.",
        "examples": json.dumps(examples()).replace("</", "<\\/"),
        "worker": joined(WEB / "page/worker.mjs"),
        **scripts,
        **{name: base64.b64encode(data).decode() for name, data in packed.items()},
    }
    for name in ("worker", *scripts):
        if "</script" in parts[name]:
            raise ValueError(f"the {name} of the page would end its element")
    text = re.sub(r"\{\{(\w+)\}\}", lambda it: parts.pop(it[1]), read("page.html"))
    if parts:
        raise ValueError(f"page.html has no place for {', '.join(parts)}")
    # A browser reads a text of ASCII alone in less time.
    return text.encode("ascii")
