"""How a run of `view` ends without a page: a status, and a line on standard error."""

USAGE, REFUSED, WRITE_FAULT, NO_MEMORY, FAILED = 1, 2, 4, 5, 70


class Refused(Exception):
    """Nothing is written; the line says why."""

    def __init__(self, status: int, line: str) -> None:
        super().__init__(line)
        self.status, self.line = status, line


def usage(text: str) -> Refused:
    """Words that are no command."""
    return Refused(USAGE, f"hosttrace: {text}")


def write_fault() -> Refused:
    return Refused(WRITE_FAULT, "write fault")
