"""Reads the program's texts of ranges, and codes each as lengths of stretches and numbers of values by turns."""


class Values:
    """The table of values: each text that the program printed has a number, in the order of their first coming; `null` has 0."""

    def __init__(self) -> None:
        self.texts, self.numbers = [], {}
        self.number(b"null\n")

    def number(self, line: bytes) -> str:
        """The number of a value, which is the end of a line."""
        text = line.removesuffix(b"\n")
        if text + b"\n" not in self.numbers:
            self.numbers[text + b"\n"] = str(len(self.texts))
            self.texts.append(text.decode())
        return self.numbers[text + b"\n"]


def tracks_of(lines, paths: list, begin: int, end: int, values: Values):
    """The track of each path, in this order: a text `LENGTH,NUMBER,LENGTH,NUMBER..` that tiles the window. Another text is a ValueError."""
    numbers, wanted, coded, until, last = values.numbers, iter(paths), [], end, None
    path, first, done = b"", b"%d" % begin, 0
    for line in lines:
        word, since, to, of, value = line.split(b" ", 4)
        if of != path:
            if until != end:
                raise ValueError(f"a range with a gap before {of!r}")
            if path:
                yield ",".join(coded)
                done += 1
            path, coded, until, last = of, [], begin, first
            if path.decode() != next(wanted, None):
                raise ValueError(f"the range of {path!r}, which isn't due")
        if since != last or word != b"stretch":
            raise ValueError(line)
        here, last = int(to), to
        number = numbers.get(value) or values.number(value)
        coded.append(f"{here - until},{number}")
        until = here
    if until != end or done + bool(path) != len(paths):
        raise ValueError("ranges that end too early")
    if path:
        yield ",".join(coded)


def is_null(track: str) -> bool:
    """Whether it has no value in all of the window."""
    return track.count(",") == 1 and track.endswith(",0")


def numbers_of(track: str) -> tuple:
    """The lengths and the numbers of values of a track."""
    both = [int(it) for it in track.split(",")]
    return both[::2], both[1::2]
