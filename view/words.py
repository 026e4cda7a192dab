"""Reads the words of `view` by the rules of docs/FORMATS.md, 'Words'."""
import os
import re

from refused import usage

LAST = 2**62 - 1  # the last instant
LONGEST = 2**53 - 1  # ns of a window: the page's numbers are exact up to here
VALUES = {"--host": "H", "--tid": "N", "--from": "T", "--to": "T", "--drift": "D", "-o": "FILE"}
FLAGS = ("--perfetto",)
RANGES = {"--host": (0, 63), "--tid": (1, 2**31 - 1), "--from": (0, LAST), "--to": (0, LAST), "--drift": (1, 10_000)}
NUMBER = re.compile(r"0|[1-9][0-9]{0,18}", re.ASCII)
MORE = "`hosttrace view --help` tells more"


def shown(word: str) -> str:
    """A word on one line: what isn't printable as the program's user could type it in Python."""
    text = os.fsencode(word).decode("utf-8", "backslashreplace")
    return "".join(it if it.isprintable() else it.encode("unicode_escape").decode() for it in text)


class Asked:
    """What the words ask for."""

    def __init__(self, words: list) -> None:
        self.words = [os.fsencode(word).decode("utf-8", "backslashreplace") for word in words]
        given, positional = options_of(words)
        numbers = {option: number_of(option, given[option]) for option in RANGES if option in given}
        if not positional or positional[0] != "view":
            raise usage(f"this makes the page of the command `view`, which isn't named ({MORE})")
        self.folders = positional[1:]
        self.host, self.tid = numbers.get("--host"), numbers.get("--tid")
        self.begin, self.end = numbers.get("--from"), numbers.get("--to")
        self.drift = [] if "--drift" not in numbers else [f"--drift={numbers['--drift']}"]
        self.out = None if given.get("-o") == "-" else given.get("-o")
        self.perfetto = "--perfetto" in given
        self.check()

    def check(self) -> None:
        """Whether the words fit together."""
        if not self.folders:
            raise usage(f"view needs a FOLDER: hosttrace view FOLDER.. ({MORE})")
        if "" in self.folders:
            raise usage("the word of a FOLDER is empty")
        if (self.begin is None) != (self.end is None):
            raise usage(f"view needs --from T and --to T together, or neither for the whole trace ({MORE})")
        if (self.host is None) != (self.tid is None):
            raise usage(f"view needs --host H and --tid N together: they name the thread of the path ({MORE})")
        if self.tid is not None and self.begin is None:
            raise usage(f"view needs --from T and --to T with --host H and --tid N: the path is from T to T ({MORE})")
        if self.begin is not None and self.begin >= self.end:
            raise usage(f"--from {self.begin} isn't before --to {self.end}")
        if self.begin is not None and self.end - self.begin > LONGEST:
            raise usage(f"a page shows at most {LONGEST} ns, and from --from to --to are {self.end - self.begin}")


def options_of(words: list) -> tuple:
    """The options with their values, and the positional words."""
    given, positional, wanted, only_folders = {}, [], None, False

    def put(option: str, value) -> None:
        if option in given:
            raise usage(f"`{option}` comes twice")
        if value == "":
            raise usage(f"`{option}` needs a value: {option} {VALUES[option]}")
        given[option] = value

    for word in words:
        is_option = not only_folders and word.startswith("-") and word != "-"
        if wanted and is_option:
            raise usage(f"`{wanted}` needs a value: {wanted} {VALUES[wanted]}")
        if wanted:
            put(wanted, word)
            wanted = None
        elif is_option and word == "--":
            only_folders = True
        elif is_option:
            wanted = read_option(word, put)
        else:
            positional.append(word)
    if wanted:
        raise usage(f"`{wanted}` needs a value: {wanted} {VALUES[wanted]}")
    return given, positional


def read_option(word: str, put):
    """The option whose value is the next word, or None where this word is all of it."""
    option, equals, value = word.partition("=")
    if option in FLAGS:
        if equals:
            raise usage(f"`{option}` takes no value")
        put(option, None)
        return None
    if option not in VALUES:
        there = ", ".join(f"{name} {value}" for name, value in VALUES.items())
        raise usage(f"`{shown(option)}` is no option of view; it has {there} and {FLAGS[0]} ({MORE})")
    if not equals:
        return option
    put(option, value)
    return None


def number_of(option: str, text: str) -> int:
    least, most = RANGES[option]
    if not NUMBER.fullmatch(text) or not least <= int(text) <= most:
        raise usage(f"`{option}` needs a number from {least} to {most}, and not `{shown(text)}`")
    return int(text)
