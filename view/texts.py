"""Reads the program's texts of a report, a path, disks and events, by docs/FORMATS.md. A text of another form is a ValueError."""
import re

ESCAPE = re.compile(rb"%([0-9A-F]{2})")
POINTS = 256  # so many stretches of a window have a point of a clock each


def name_of(text: bytes) -> str:
    """What a byte text stands for: UTF-8 where it is, else each bad byte as \\xHH; nothing where a thread has no name."""
    if text in (b"%", b"%-"):
        return ""
    return ESCAPE.sub(lambda it: bytes([int(it[1], 16)]), text).decode("utf-8", "backslashreplace")


class Host:
    """A machine: its name, and the report's lines that tell how its clock fits."""

    def __init__(self, number: int, name: str) -> None:
        self.number, self.name, self.fit = number, name, []


class Lane:
    """A processor or a thread, with its tracks by leaf: texts of lengths and values by turns."""

    def __init__(self, host: int, kind: str, key: str, name: str, running: int) -> None:
        self.host, self.kind, self.key, self.name, self.running, self.tracks = host, kind, key, name, running, {}

    def paths(self) -> list:
        leaves, folder = (("Thread", "Irq", "Softirq"), "Cpu") if self.kind == "cpu" else (("Status", "Call", "Cpu", "Name"), "Thread")
        return [(leaf, f"h{self.host}/{folder}/{self.key}/{leaf}") for leaf in leaves]


class Report:
    """What a page takes of a report: the drift, the window, the machines, and the lanes, machine by machine."""

    def __init__(self, lines) -> None:
        self.hosts, self.lanes, self.drift, self.window, last = [], [], None, None, None
        for number, line in enumerate(lines):
            last = line.rstrip(b"\n").split(b" ")
            if number == 0 and line != b"hosttrace report 1\n":
                raise ValueError(line)
            self.read(last)
        if last != [b"end"] or self.drift is None or self.window is None:
            raise ValueError("no whole report")
        self.lanes.sort(key=lambda lane: lane.host)

    def read(self, fields: list) -> None:
        word = fields[0]
        if word == b"drift":
            self.drift = int(fields[1])
        elif word == b"host":
            self.hosts.append(Host(int(fields[1]), name_of(fields[2])))
        elif word == b"pair":
            for place in (1, 2):
                self.hosts[int(fields[place])].fit.append(b" ".join(fields).decode())
        elif word == b"tree":
            self.hosts[int(fields[1])].fit.insert(0, b" ".join(fields).decode())
        elif word == b"window":
            self.window = int(fields[1]), int(fields[2])
        elif word == b"cpu":
            self.lanes.append(Lane(int(fields[1]), "cpu", fields[2].decode(), "", 0))
        elif word == b"thread":
            self.lanes.append(Lane(int(fields[1]), "thread", fields[2].decode(), name_of(fields[3]), int(fields[5])))


def pieces_of(lines, hosts: int, begin: int, end: int) -> list:
    """The pieces of a path, which tile the window: ns, host, tid, what."""
    pieces, until = [], begin
    for line in lines:
        word, since, to, host, tid, what = line.rstrip(b"\n").split(b" ")
        if word != b"piece" or int(since) != until or int(host) >= hosts:
            raise ValueError(line)
        until = int(to)
        pieces.append([until - int(since), int(host), int(tid), what.decode()])
    if until != end:
        raise ValueError("a path with a gap")
    return pieces


def disks_of(lines) -> list:
    """The lines of disks."""
    told = [line.rstrip(b"\n").decode() for line in lines]
    for line in told:
        if line.split(" ")[0] not in ("disk", "latency"):
            raise ValueError(line)
    return told


def clocks_of(lines, hosts: int, begin: int, end: int) -> list:
    """Of each host's events the first one in each of POINTS stretches of the window, the last one of it, and the nearest one on either
    side of it: offset of the key from the window's begin, and own time."""
    points, before, last, after = [[] for _ in range(hosts)], [None] * hosts, [None] * hosts, [None] * hosts
    due, length, lines = [begin] * hosts, end - begin, iter(lines)
    if next(lines, None) != b"hosttrace events 1\n":
        raise ValueError("no events")
    for line in lines:
        key, host, _, own, _ = line.split(b" ", 4)
        key, host = int(key), int(host)
        if key < begin:
            before[host] = key, own
        elif key >= end:
            after[host] = after[host] or (key, own)
        else:
            last[host] = key, own
            if key >= due[host]:
                points[host].append(last[host])
                due[host] = begin - (-((key - begin) * POINTS // length + 1) * length // POINTS)
    told = [dict(it for it in (before[host], *points[host], last[host], after[host]) if it) for host in range(hosts)]
    return [[[key - begin, own.decode()] for key, own in of.items() if abs(key - begin) < 2**53] for of in told]
