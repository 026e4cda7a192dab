"""Writes what a page shows as a trace in the JSON form of Chrome's Trace Event Format, which Perfetto opens: a process for each machine, a
thread for each lane, slices as complete events, and the path as slices of its own with arrows between the threads."""
import json
from bisect import bisect_left

from stretches import numbers_of

# the tracks of a lane, each cut where one before it changes, so that its slices lie within theirs
LAYERS = {"cpu": ("Thread", "Softirq", "Irq"), "thread": ("Status", "Call")}


def time_text(ns: int) -> str:
    """Microseconds, with ns as decimals."""
    return f"{ns // 1000}.{ns % 1000:03d}"


def line(**fields) -> str:
    return json.dumps(fields, separators=(",", ":"))


def slices(track: str, cuts: list):
    """The stretches of a track that have a value, cut at instants: begin, end, number of the value; and the instants where it changes."""
    at, found, changes = 0, [], []
    for length, value in zip(*numbers_of(track)):
        end = at + length
        if value:
            inside = cuts[bisect_left(cuts, at + 1):bisect_left(cuts, end)]
            found += [(since, until, value) for since, until in zip([at, *inside], [*inside, end])]
        changes.append(at)
        at = end
    return found, changes


class Trace:
    def __init__(self, page) -> None:
        self.page = page
        self.names = {(lane.host, lane.key): lane.name for lane in page.report.lanes if lane.kind == "thread"}
        self.tids = self.numbered()

    def numbered(self) -> dict:
        """The number of each lane within its process: a thread's own, and numbers above all of these for the others."""
        tids, free = {}, {}
        for lane in self.page.report.lanes:
            if lane.kind == "thread" and lane.key.isdecimal():
                tids[lane] = int(lane.key)
                free[lane.host] = max(free.get(lane.host, 1), tids[lane] + 1)
        for lane in self.page.report.lanes:
            if lane not in tids:
                tids[lane] = free.setdefault(lane.host, 1)
                free[lane.host] += 1
        return tids

    def thread_text(self, host: int, key: str) -> str:
        return f"{key} {self.names.get((host, key), '')}".rstrip()

    def value_text(self, lane, leaf: str, value: int) -> str:
        text = self.page.values.texts[value]
        word, _, rest = text.partition(" ")
        if leaf == "Thread":
            return "idle" if rest == "0" else self.thread_text(lane.host, rest)
        return f"{leaf} {rest}" if leaf in ("Irq", "Softirq") else rest if word in ("status", "call") else text

    def names_of_lanes(self):
        for host in self.page.report.hosts:
            yield line(ph="M", name="process_name", pid=host.number + 1, tid=0, args={"name": host.name or f"host {host.number}"})
        for place, lane in enumerate(self.page.report.lanes):
            name = f"processor {lane.key}" if lane.kind == "cpu" else self.thread_text(lane.host, lane.key)
            of = {"ph": "M", "pid": lane.host + 1, "tid": self.tids[lane]}
            yield line(name="thread_name", args={"name": name}, **of)
            yield line(name="thread_sort_index", args={"sort_index": place}, **of)

    def slices_of(self, lane):
        cuts = []
        for leaf in LAYERS[lane.kind]:
            if leaf not in lane.tracks:
                continue
            found, changes = slices(lane.tracks[leaf], cuts)
            heads = {}
            for since, until, value in found:
                if value not in heads:
                    name = json.dumps(self.value_text(lane, leaf, value))
                    heads[value] = f'{{"ph":"X","cat":"{leaf}","name":{name},"pid":{lane.host + 1},"tid":{self.tids[lane]}'
                yield f'{heads[value]},"ts":{time_text(since)},"dur":{time_text(until - since)}}}'
            cuts = sorted({*cuts, *changes})

    def path(self):
        """The pieces on a lane of their own, and an arrow where the path goes to another thread, from its last ns on the one before."""
        path, hosts = self.page.path, self.page.report.hosts
        lanes = {(lane.host, lane.key): tid for lane, tid in self.tids.items() if lane.kind == "thread"}
        own = {"pid": len(hosts) + 1, "tid": 1}
        name = f"path of {hosts[path['host']].name} {self.thread_text(path['host'], str(path['tid']))}"
        yield line(ph="M", name="process_name", args={"name": name}, **own)
        yield line(ph="M", name="thread_name", args={"name": "path"}, **own)
        at, before = 0, None
        for number, (length, host, tid, what) in enumerate(path["pieces"]):
            here, text = (host, str(tid)), f"{hosts[host].name} {self.thread_text(host, str(tid))}: {what}"
            yield f'{line(ph="X", cat="path", name=text, **own)[:-1]},"ts":{time_text(at)},"dur":{time_text(length)}}}'
            if before not in (None, here) and before in lanes and here in lanes:
                for ph, (of, key), when, more in (("s", before, at - 1, {}), ("f", here, at, {"bp": "e"})):
                    head = line(ph=ph, cat="path", name="path", id=number, pid=of + 1, tid=lanes[(of, key)], **more)
                    yield f'{head[:-1]},"ts":{time_text(when)}}}'
            at, before = at + length, here

    def lines(self):
        yield from self.names_of_lanes()
        for lane in self.page.report.lanes:
            yield from self.slices_of(lane)
        if self.page.path:
            yield from self.path()


def pieces(page):
    """The trace's text, in pieces of bytes."""
    made = {"from": str(page.begin), "to": str(page.end), "drift": page.report.drift, "words": page.asked.words}
    text = [f'{{"displayTimeUnit":"ns","otherData":{json.dumps(made)},"traceEvents":[']
    between = "\n"
    for event in Trace(page).lines():
        text.append(between + event)
        between = ",\n"
        if len(text) > 10_000:
            yield "".join(text).encode()
            text = []
    yield ("".join(text) + "\n]}\n").encode()
