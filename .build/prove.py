#!/usr/bin/env python3
"""Builds and proves programs of this repository, with all crates that they stand on.

.build/prove.py PROGRAM..: the names of crates with a main. What is built and stands above its sources isn't built again.
.build/prove.py --mark FILE: says of the programs that a whole `rt ci` left here that they are built, as far as no source is newer than FILE.

It runs `rt ci` over a copy of these crates alone, without must-fail edits, so that rt plans which crates are proved side by side and
keeps what is proved for the gate. The program, `crates/PROGRAM/out/PROGRAM`, replaces the old one only when all is proved; a lock keeps
two builds apart."""
import contextlib
import fcntl
import os
import re
import shutil
import signal
import subprocess
import sys
import tempfile
from pathlib import Path

TOP = Path(__file__).resolve().parent.parent
FAILED = 70


def crates():
    """The crates with those of the repository that each names, in the order of crates.txt, and the line of each."""
    lines = {}
    for line in (TOP / "crates.txt").read_text().splitlines():
        name, colon, _ = line.partition("#")[0].partition(":")
        if colon:
            lines[name.split()[0]] = line
    return {name: [it for it in line.partition(":")[2].split() if it in lines] for name, line in lines.items()}, lines


def below(deps, programs):
    """The programs and the crates that they stand on."""
    found, wanted = set(), [*programs]
    while wanted:
        it = wanted.pop()
        if it not in found:
            found.add(it)
            wanted += deps[it]
    return found


def program_of(name):
    return TOP / "crates" / name / "out" / name


def mark_of(name):
    """Its time is that at which the build of the program began."""
    return program_of(name).with_name(f"{name}.built")


def is_older(names, time):
    """Whether no source of these crates is newer."""
    files = [TOP / "crates.txt", TOP / "HANDLES"]
    for name in names:
        files += [it for it in (TOP / "crates" / name).rglob("*") if not {"out", "must-fail"} & set(it.parts)]
    return all(it.stat().st_mtime_ns <= time for it in files)


def is_built(deps, name):
    mark = mark_of(name)
    return program_of(name).exists() and mark.exists() and is_older(below(deps, [name]), mark.stat().st_mtime_ns)


def mark(deps, since):
    """Marks each program that stands in its crate's out/."""
    for name in deps:
        if (TOP / "crates" / name / "src/main.rt").exists() and program_of(name).exists() and is_older(below(deps, [name]), since.st_mtime_ns):
            mark_of(name).touch()
            os.utime(mark_of(name), ns=(since.st_atime_ns, since.st_mtime_ns))


@contextlib.contextmanager
def copied(names, lines):
    """A folder with these crates alone."""
    with tempfile.TemporaryDirectory(prefix="hosttrace-prove-") as folder:
        for name in names:
            shutil.copytree(TOP / "crates" / name, f"{folder}/crates/{name}", ignore=shutil.ignore_patterns("out", "must-fail"))
        Path(folder, "crates.txt").write_text("".join(f"{line}\n" for name, line in lines.items() if name in names))
        shutil.copy(TOP / "HANDLES", folder)
        yield Path(folder)


def tell(done, names):
    if sys.stderr.isatty():
        print(f"\r\033[Khosttrace: {done} of {len(names)} crates are proved", end="", file=sys.stderr, flush=True)


def proved(folder, names, log):
    """Whether rt proves all crates of a folder; how far it is is told meanwhile."""
    with open(log, "w", encoding="utf-8") as to:
        run = subprocess.Popen(["rt", "ci"], cwd=folder, stdin=subprocess.DEVNULL, stdout=subprocess.PIPE, stderr=subprocess.STDOUT, text=True, start_new_session=True)
        try:
            done = 0
            tell(done, names)
            for line in run.stdout:
                to.write(line)
                to.flush()
                done += bool(re.match(r"rt: \w+ (proved|is kept)", line))
                tell(done, names)
            return run.wait() == 0
        finally:
            if run.poll() is None:
                os.killpg(run.pid, signal.SIGTERM)
                run.wait()
            if sys.stderr.isatty():
                print("\r\033[K", end="", file=sys.stderr)


def build(deps, lines, programs):
    names = below(deps, programs)
    log = program_of(programs[0]).with_name("prove.log")
    begun = program_of(programs[0]).with_name("prove.begun")
    begun.touch()
    since = begun.stat()
    with copied(names, lines) as folder:
        if not proved(folder, names, log):
            print(f"hosttrace: the build failed; the end of {log}:", *log.read_text().splitlines()[-20:], sep="\n", file=sys.stderr)
            return FAILED
        for name in programs:
            to = program_of(name)
            to.parent.mkdir(exist_ok=True)
            new = to.with_name(f"{name}.new")
            shutil.copy2(folder / "crates" / name / "out" / name, new)
            os.replace(new, to)
    begun.unlink()
    mark({it: deps[it] for it in deps if it in names}, since)
    return 0


def main():
    deps, lines = crates()
    words = sys.argv[1:]
    if words[:1] == ["--mark"]:
        mark(deps, os.stat(words[1]))
        return 0
    for it in (signal.SIGINT, signal.SIGTERM, signal.SIGHUP):
        signal.signal(it, lambda *_: sys.exit(FAILED))
    lock = program_of(words[0]).with_name("prove.lock")
    try:
        lock.parent.mkdir(exist_ok=True)
        with open(lock, "w") as held:
            fcntl.flock(held, fcntl.LOCK_EX)
            wanted = [it for it in words if not is_built(deps, it)]
            return build(deps, lines, wanted) if wanted else 0
    except OSError as error:
        print(f"hosttrace: the program can't be built here: {error}", file=sys.stderr)
        return FAILED


if __name__ == "__main__":
    sys.exit(main())
