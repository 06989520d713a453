#!/usr/bin/env python3
"""Writes data/random.calls: calls of one caller at random, on a plain semaphore with a plain line.

It knows nothing of the crates. A wait is a number in a list, and one that gave up is in it no more:
however many did, a release comes to the first of the line.
"""

import random


class Semaphore:
    """A plain semaphore with one caller."""

    def __init__(self, permits, limit):
        self.free, self.limit = permits, limit
        self.drawn = self.held = 0
        self.line, self.served = [], set()

    def state(self):
        return self.free - len(self.line)

    def acquire(self):
        if self.drawn == self.limit:
            return "Worn"
        if self.free > 0:
            self.free -= 1
            self.held += 1
            return "Now"
        self.line.append(self.drawn)
        self.drawn += 1
        return f"Later {self.drawn - 1}"

    def attempt(self):
        if self.free == 0:
            return "Busy"
        self.free -= 1
        self.held += 1
        return "Got"

    def come(self, wait):
        self.served.remove(wait)
        self.held += 1

    def poll(self, wait):
        if wait in self.line:
            return "Pending"
        if wait not in self.served:
            return "Refused"
        self.come(wait)
        return "Granted"

    def cancel(self, wait):
        if wait in self.line:
            self.line.remove(wait)
            return "Cancelled"
        if wait not in self.served:
            return "Refused"
        self.come(wait)
        return "TooLate"

    def release(self):
        if self.held == 0:
            return "Refused"
        self.held -= 1
        if not self.line:
            self.free += 1
            return "Freed"
        first = self.line.pop(0)
        self.served.add(first)
        return f"Sent {first}"


def run(draw, permits, limit, calls, *phases):
    one = Semaphore(permits, limit)
    lines = [f"semaphore {permits} 1 {limit} {limit // 32 + 8}: Ok"]
    for number in range(calls):
        weights = phases[number // 250 % len(phases)]
        verb = draw.choices(["acquire", "try", "poll", "cancel", "release", "state", "held"], weights)[0]
        known = one.line + sorted(one.served)
        wait = draw.choice(known) if known and draw.random() < 0.95 else draw.randrange(limit)
        answers = {
            "acquire": one.acquire, "try": one.attempt, "release": one.release,
            "poll": lambda: one.poll(wait), "cancel": lambda: one.cancel(wait),
            "state": one.state, "held": lambda: one.held,
        }
        asked = f"{verb} {wait}" if verb in ("poll", "cancel") else verb
        lines.append(f"{asked}: {answers[verb]()}")
    return lines


def main():
    draw = random.Random(20)
    lines = []
    for title, permits, limit, calls, *phases in [
        ("A semaphore of one.", 1, 300, 800, (6, 1, 4, 3, 4, 1, 1)),
        ("Of three.", 3, 300, 800, (6, 1, 4, 2, 5, 1, 1)),
        ("Few numbers.", 2, 9, 200, (5, 3, 3, 2, 4, 1, 1)),
        ("Many permits.", 20, 100, 800, (8, 2, 3, 1, 5, 1, 1)),
        ("Many wait, then nearly all of them give up, and then permits are given back.", 4, 2000, 6000,
         (20, 1, 1, 0, 0, 0, 0), (0, 0, 1, 30, 0, 0, 0), (2, 0, 9, 2, 9, 1, 1)),
    ]:
        lines.append(f"=== {title}")
        lines += run(draw, permits, limit, calls, *phases)
    with open("data/random.calls", "w") as file:
        file.write("\n".join(lines) + "\n")


if __name__ == "__main__":
    main()
