#!/usr/bin/env python3
"""Writes a list of switches on standard output: make_list.py EVENTS [one|own]

64 hosts with 8 processors and 5,000 threads each. Every event takes the thread that runs on a
processor off it and puts another of the host's threads there. The same number gives the same list.

one: one processor, on which two threads take turns. own: eight processors, and each event takes a thread off one of them and
puts another there that no other event names.
"""
import random
import sys

HOSTS = 64
PROCESSORS = 8
THREADS = 5_000
START = 100_000_000_000_000


def write(lines) -> None:
    sys.stdout.write("hosttrace events 1\n")
    sys.stdout.writelines(lines)


def switch(now: int, processor: int, before: int, after: int) -> str:
    return f"{now} 0 {processor} {now} switch {before} worker-{before} 20 0 {after} worker-{after} 20\n"


def one(events: int):
    """Switches between threads 1 and 2."""
    return (switch(START + number * 1_000, 0, 1 + number % 2, 2 - number % 2) for number in range(events))


def own(events: int):
    """Switches each between two threads of its own."""
    return (switch(START + number * 1_000, number % PROCESSORS, 2 * number + 1, 2 * number + 2) for number in range(events))


def many(events: int):
    """Switches of many hosts."""
    draw = random.Random(events)
    running = [[0] * PROCESSORS for _ in range(HOSTS)]
    now = START
    for _ in range(events):
        host = draw.randrange(HOSTS)
        processor = draw.randrange(PROCESSORS)
        now += draw.randrange(1, 2_000)
        before = running[host][processor]
        after = draw.randrange(1, THREADS)
        running[host][processor] = after
        comm_before = f"worker-{before}" if before else f"swapper/{processor}"
        yield (
            f"{now} {host} {processor} {now} switch {before} {comm_before} 20"
            f" {draw.randrange(2)} {after} worker-{after} 20\n"
        )


SHAPES = {"many": many, "one": one, "own": own}
write(SHAPES[sys.argv[2] if len(sys.argv) > 2 else "many"](int(sys.argv[1])))
