#!/usr/bin/env python3
"""Answers a command by the program as it is written, compiled and not yet proved.

.build/unproved.py WORD..: the words of one command of hosttrace. `rt try` compiles the program and runs it once in a folder of its own,
so each file that a word names is handed over under another name, and the word is written anew. Standard output and the status are the
program's; a run that doesn't come to its end, or whose text is too long for a try, ends with status 70."""
import re
import shutil
import subprocess
import sys
import tempfile
from pathlib import Path

TOP = Path(__file__).resolve().parent.parent
CRATE = TOP / "crates/hosttrace_cli"
FAILED = 70
SECONDS = "600"
# Options whose value is the name of a file, and those that have another value.
FILES = ("--list", "--questions")
VALUES = ("--at", "--attribute", "--host", "--tid", "--from", "--to", "--drift", "--workers", "--number", "--hosts", "--rounds")
# Lines of rt's on standard error; the last tells how the run ended.
RT_LINES = re.compile(rb"(interpreter|checked|races|run|rt|note|help|warning)[:=]")
ENDED = re.compile(rb"^run=ended status=(\d+) ", re.M)


def given_words(words):
    """The words, those that name files written anew, and the named files by their new names."""
    named, out, wanted, has_command, only_names = {}, [], None, False, False

    def renamed(word):
        named.setdefault(word, f"i{len(named)}")
        return named[word]

    for word in words:
        option, equals, value = word.partition("=")
        if wanted is not None:
            out.append(renamed(word) if wanted in FILES else word)
            wanted = None
        elif not only_names and word == "--":
            only_names = True
            out.append(word)
        elif not only_names and word.startswith("-") and word != "-":
            out.append(f"{option}={renamed(value)}" if equals and option in FILES and value else word)
            wanted = option if not equals and option in (*FILES, *VALUES) else None
        elif not has_command or word == "":
            has_command = True
            out.append(word)
        else:
            out.append(renamed(word))
    return out, {to: Path(word) for word, to in named.items()}


def files_of(to, path, scratch):
    """What stands for a word's file or folder: names in the program's folder, each with the file that has its bytes."""
    if path.is_dir():
        return {f"{to}/{it.name}": it.resolve() for it in path.iterdir() if it.is_file()}
    if path.is_file():
        return {to: path.resolve()}
    if not path.exists():
        return {}
    # a pipe, say: its bytes are read once
    kept = Path(scratch, to)
    with open(path, "rb") as source, open(kept, "wb") as copy:
        shutil.copyfileobj(source, copy)
    return {to: kept}


def data_of(named, scratch):
    """The words by which rt is handed these files."""
    found = {}
    for to, path in named.items():
        found.update(files_of(to, path, scratch))
    return [word for name, file in found.items() for word in ("--data", f"{name}={file}")]


def main():
    words, named = given_words(sys.argv[1:])
    with tempfile.TemporaryDirectory(prefix="hosttrace-") as scratch:
        command = ["rt", "try", "--seconds", SECONDS, *data_of(named, scratch), "--", *words]
        try:
            done = subprocess.run(command, cwd=CRATE, stdin=subprocess.DEVNULL, capture_output=True)
        except OSError as error:
            print(f"hosttrace: rt can't be started, and without it nothing is built: {error}", file=sys.stderr)
            return FAILED
    ended = ENDED.search(done.stderr)
    if not ended:
        print("hosttrace: this can't be answered without the proved program: it takes too long, its text is too large, or it doesn't compile", file=sys.stderr)
        print("hosttrace: `./hosttrace prove` builds that; rt said:", *done.stderr.decode(errors="replace").splitlines()[-3:], sep="\n  ", file=sys.stderr)
        return FAILED
    sys.stdout.buffer.write(done.stdout)
    sys.stdout.flush()
    lines = done.stderr[: ended.start()].splitlines(True)
    sys.stderr.buffer.write(b"".join(it for it in lines if not RT_LINES.match(it)))
    return int(ended[1])


if __name__ == "__main__":
    sys.exit(main())
