#!/usr/bin/env python3
"""Makes a page for a browser, or a trace for Perfetto, of what the program answers about the traces of machines.

make_page.py PROGRAM view [--host H --tid N] [--from T --to T] [--drift D] [-o FILE] [--perfetto] FOLDER..

PROGRAM is what answers the commands of hosttrace; the launcher starts this script. docs/FORMATS.md tells of the words, of what is run, and
of the object that the page holds."""
import contextlib
import json
import re
import signal
import sys
from pathlib import Path

import outputs
import perfetto
from refused import FAILED, NO_MEMORY, REFUSED, Refused
from runs import Runs, Usage
from stretches import Values, is_null, tracks_of
from texts import Report, clocks_of, disks_of, pieces_of
from words import LAST, LONGEST, Asked

HERE = Path(__file__).resolve().parent
MOST = 30_000_000  # bytes of a page
WORD = 100 * 1024  # bytes of paths in one word; the system takes words up to 128 KiB
SCRIPTS = re.compile(r"<!-- scripts: ([^>]*) -->")
PLACES = re.compile(r"(/\*(?:STYLE|DATA|SCRIPT)\*/)")


class Page:
    """What is shown: the program's answers over a window."""

    def __init__(self, program: str, asked: Asked) -> None:
        self.program, self.asked, self.values, self.path = program, asked, Values(), None
        self.tracks, self.dropped = 0, 0  # bytes of all tracks, and of those that no page would have room for
        with Runs(program, [["report", *asked.drift, "--", *asked.folders]]) as runs:
            self.report = read("report", Report, runs)
        self.begin, self.end = window(asked, *self.report.window)
        paths = [(lane, leaf, path) for lane in self.report.lanes for leaf, path in lane.paths()]
        parts = parted(paths)
        shape = len(self.report.hosts), self.begin, self.end
        with Runs(program, [*self.others(), *self.ranges(parts)]) as runs:
            if asked.tid is not None:
                pieces = read("path", lambda lines: pieces_of(lines, *shape), runs)
                self.path = {"host": asked.host, "tid": asked.tid, "pieces": pieces}
            self.disks = read("disks", disks_of, runs)
            self.clocks = read("events", lambda lines: clocks_of(lines, *shape), runs)
            try:
                self.read_tracks(parts, runs)
                return
            except Usage:
                parts = [[path] for path in paths]
        # a program that takes one path a run
        with Runs(program, self.ranges(parts)) as runs:
            self.read_tracks(parts, runs)

    def others(self) -> list:
        """The commands beside the ranges."""
        asked, behind = self.asked, [*self.asked.drift, "--", *self.asked.folders]
        path = [["path", f"--host={asked.host}", f"--tid={asked.tid}", *self.from_to(), *behind]] if asked.tid is not None else []
        return [*path, ["disks", *behind], ["events", *behind]]

    def ranges(self, parts: list) -> list:
        behind = [*self.asked.drift, "--", *self.asked.folders]
        return [["range", *self.from_to(), f"--attribute={','.join(path for *_, path in part)}", *behind] for part in parts]

    def from_to(self) -> list:
        return [f"--from={self.begin}", f"--to={self.end}"]

    def read_tracks(self, parts: list, runs: Runs) -> None:
        """Puts the tracks into their lanes."""
        for part in parts:
            read("range", lambda lines: self.read_part(part, lines), runs)

    def read_part(self, part: list, lines) -> None:
        tracks = tracks_of(lines, [path for *_, path in part], self.begin, self.end, self.values)
        for (lane, leaf, _), track in zip(part, tracks, strict=True):
            if not is_null(track):
                lane.tracks[leaf] = self.kept(track)

    def kept(self, track: str) -> str:
        """The track, or nothing in place of it where a page is above its bound already."""
        self.tracks += len(track)
        if self.asked.perfetto or self.tracks <= MOST:
            return track
        self.dropped += len(track)
        return ""


def read(command: str, reader, runs: Runs):
    """What a reader makes of the next run's lines."""
    try:
        return reader(runs.next().lines())
    except (ValueError, IndexError):
        raise Refused(FAILED, f"hosttrace: `hosttrace {command}` printed another text than docs/FORMATS.md says") from None


def window(asked: Asked, first: int, last: int) -> tuple:
    """From where to where: as the words say, or all of the trace; where that is no time, the nanosecond from its one instant on."""
    if asked.begin is not None:
        return asked.begin, asked.end
    begin = min(first, LAST - 1)
    end = max(last, begin + 1)
    if end - begin > LONGEST:
        raise Refused(REFUSED, f"too large: window: {end - begin} ns; --from {begin} --to {begin + LONGEST} is the longest of a page")
    return begin, end


def parted(paths: list) -> list:
    """The paths in parts that fit into a word each."""
    parts, size = [], WORD
    for it in paths:
        size += len(it[-1]) + 1
        if size > WORD:
            parts.append([])
            size = len(it[-1]) + 1
        parts[-1].append(it)
    return parts


def object_text(value) -> str:
    """JSON of ASCII that no page takes for its own marks."""
    text = json.dumps(value, separators=(",", ":"))
    return text.replace("<", "\\u003c").replace(">", "\\u003e").replace("&", "\\u0026")


def data_of(page: Page) -> list:
    """The data object, in pieces of text."""
    report = page.report
    hosts = [{"number": host.number, "name": host.name, "fit": host.fit, "clock": page.clocks[host.number]} for host in report.hosts]
    front = {"format": 1, "from": str(page.begin), "to": str(page.end), "drift": report.drift, "hosts": hosts, "values": page.values.texts}
    text = [object_text(front)[:-1], ',"lanes":[']
    for number, lane in enumerate(report.lanes):
        of = {"host": lane.host, "kind": lane.kind, "id": lane.key, "name": lane.name, "running": lane.running}
        tracks = ",".join(f'"{leaf}":[{track}]' for leaf, track in lane.tracks.items())
        text.append(f'{"," if number else ""}\n{object_text(of)[:-1]},"tracks":{{{tracks}}}}}')
    rest = {"path": page.path, "disks": page.disks, "words": page.asked.words}
    return [*text, "],", object_text(rest)[1:]]


def page_of(page: Page) -> list:
    """The page, in pieces of bytes: its skeleton with the style, the data and the scripts at their places."""
    try:
        skeleton, style = (HERE / "page.html").read_text("utf-8"), (HERE / "page.css").read_text("utf-8")
        script = "\n".join((HERE / name).read_text("utf-8") for name in SCRIPTS.search(skeleton)[1].split())
    except (OSError, TypeError) as error:
        raise Refused(FAILED, f"hosttrace: the parts of a page in {HERE} can't be read: {error}") from None
    parts = {"/*STYLE*/": [style], "/*DATA*/": data_of(page), "/*SCRIPT*/": [script]}
    pieces = [it.encode() for piece in PLACES.split(skeleton) for it in parts.get(piece, [piece])]
    check_size(page, sum(map(len, pieces)))
    return pieces


def check_size(page: Page, kept: int) -> None:
    """Refuses a page above the bound, with the window from the same instant on that would fit by its share of the stretches."""
    size = kept + page.dropped
    if size <= MOST:
        return
    stretches = page.tracks + (len(json.dumps(page.path)) if page.path else 0)
    length = (page.end - page.begin) * max(MOST * 9 // 10 - (size - stretches), 0) // stretches
    told = f"too large: page: {size} bytes, more than {MOST}"
    if length == 0:
        raise Refused(REFUSED, f"{told}; name fewer folders")
    raise Refused(REFUSED, f"{told}; --from {page.begin} --to {page.begin + length} would fit, by its share")


def stopped(number: int, _) -> None:
    """Ends the script in order, so that no part of a file is left."""
    sys.exit(128 + number)


def main() -> int:
    for number in (signal.SIGINT, signal.SIGTERM, signal.SIGHUP):
        if signal.getsignal(number) != signal.SIG_IGN:
            signal.signal(number, stopped)
    try:
        asked = Asked(sys.argv[2:])
        page = Page(sys.argv[1], asked)
        outputs.write(asked.out, perfetto.pieces(page) if asked.perfetto else page_of(page))
        return 0
    except Refused as refused:
        status, line = refused.status, refused.line
    except MemoryError:
        status, line = NO_MEMORY, "out of memory"
    with contextlib.suppress(OSError):
        if sys.stderr is not None:
            print(line, file=sys.stderr)
    return status


if __name__ == "__main__":
    sys.exit(main())
