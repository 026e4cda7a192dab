#!/usr/bin/env python3
"""Writes a list of events in which threads wait for one another on standard output: make_waits.py EVENTS

Eight hosts with four processors and 24 threads each. Threads run and block, wake one another, are woken by timers and by
interrupts of disks, and by messages from threads of other hosts. The same number gives the same list.
"""
import random
import sys

HOSTS, PROCESSORS, THREADS = 8, 4, 24
START = 100_000_000_000_000


class Host:
    def __init__(self) -> None:
        self.running = [0] * PROCESSORS
        self.ready, self.blocked = list(range(1, THREADS + 1)), []


class Writer:
    def __init__(self, events: int) -> None:
        self.draw, self.left, self.now, self.sent = random.Random(events), events, START, 0
        self.hosts, self.lines = [Host() for _ in range(HOSTS)], ["hosttrace events 1\n"]

    def event(self, host: int, cpu: int, rest: str) -> None:
        if self.left > 0:
            self.left -= 1
            self.now += self.draw.randrange(1, 2_000)
            self.lines.append(f"{self.now} {host} {cpu} {self.now} {rest}\n")

    def taken(self, threads: list) -> int:
        """A thread out of a list, or the idle one."""
        return threads.pop(self.draw.randrange(len(threads))) if threads else 0

    def switch(self, number: int, cpu: int) -> None:
        host = self.hosts[number]
        before, after = host.running[cpu], self.taken(host.ready)
        if before == after:
            return
        blocks = self.draw.randrange(3) > 0
        if before:
            (host.blocked if blocks else host.ready).append(before)
        host.running[cpu] = after
        self.event(number, cpu, f"switch {before} t{before} 20 {int(bool(before) and blocks)} {after} t{after} 20")

    def wakeup(self, number: int, cpu: int) -> None:
        if woken := self.taken(self.hosts[number].blocked):
            self.hosts[number].ready.append(woken)
            self.event(number, cpu, f"wakeup {woken} t{woken} 20 {cpu}")

    def soft(self, number: int, cpu: int, vec: int) -> None:
        self.event(number, cpu, f"soft-in {vec}")
        self.wakeup(number, cpu)
        self.event(number, cpu, f"soft-out {vec}")

    def message(self, number: int, cpu: int) -> None:
        other, key = (number + 1 + self.draw.randrange(HOSTS - 1)) % HOSTS, f"{number} 1 40000 80 {self.sent} 0 16"
        self.sent += 1
        self.event(number, cpu, f"send {key}")
        for _ in range(self.draw.randrange(4)):
            self.switch(self.draw.randrange(HOSTS), self.draw.randrange(PROCESSORS))
        self.event(other, cpu, "soft-in 3")
        self.event(other, cpu, f"receive {key}")
        self.wakeup(other, cpu)
        self.event(other, cpu, "soft-out 3")

    def write(self) -> None:
        while self.left > 0:
            host, cpu = self.draw.randrange(HOSTS), self.draw.randrange(PROCESSORS)
            match self.draw.randrange(10):
                case 0:
                    self.soft(host, cpu, self.draw.choice((1, 4)))
                case 1 | 2:
                    self.message(host, cpu)
                case 3 | 4:
                    self.wakeup(host, cpu)
                case _:
                    self.switch(host, cpu)
            if len(self.lines) >= 10_000:
                sys.stdout.writelines(self.lines)
                self.lines.clear()
        sys.stdout.writelines(self.lines)


Writer(int(sys.argv[1])).write()
