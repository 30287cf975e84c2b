"""Where the programs and the archive are that the checks run: see harness.py."""

from harness import in_node, path_of

__all__ = ["in_node", "path_of"]
