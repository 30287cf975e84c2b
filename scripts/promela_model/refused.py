"""Why there is no model of a file."""


class Refused(Exception):
    """The file is no configuration, or its model would be too large; the text says why."""


def require(holds: object, cause: str) -> None:
    """Refuses the file unless this holds."""
    if not holds:
        raise Refused(cause)
