#!/usr/bin/env python3
"""Writes data/random.schedules, data/histories.schedules and data/breaks.schedules, and prints the line of stdout on stalls.

It has the table of events on plain lists, and a semaphore with its line as anybody would write it down, and knows
nothing of the crates. Each entry that the table appends is replayed on the semaphore, which must allow it, and must
then have the state word of the table.
"""
from pathlib import Path

DATA = Path(__file__).parent / "data"
VERBS = "take try_load try_swap draw install give reach meet leave decide settle look".split()
# what a pass of a synchronous core is likely to do next, but for idle ones: a suspend is slow, so that resumes overtake it
LIKELY = {
    "TryAt": "try_swap", "Door": "draw - - -", "Drawn": "install - -", "Owes": "reach", "Ticket": "meet",
    "Watching": "see see break", "Leaving": "decide - -", "Decided": "settle - - -",
}
IDLE = ("Idle",)


class Table:
    """The table of events. A step answers its outcome and its entries, or None where the event may not come now."""

    def __init__(self, permits, is_sync=False):
        self.is_sync = is_sync
        self.state = permits
        self.suspends = 0
        self.resumes = 0
        self.cells = []  # each has a state, its owner, and whether its permit was collected
        self.doing = [IDLE] * 3
        self.held = [0] * 3

    def cell(self, number):
        if len(self.cells) <= number:
            self.cells.append({"state": "Empty", "owner": None, "collected": False})
        return self.cells[number]

    def own_wait(self, p, wait):
        """The cell of the pass's own wait, where the pass is idle and the wait isn't closed."""
        if wait < len(self.cells) and self.doing[p] == IDLE:
            cell = self.cells[wait]
            if cell["owner"] == p and not cell["collected"]:
                return cell
        return None

    def collect(self, p, cell):
        cell["collected"] = True
        self.held[p] += 1

    def step(self, verb, p, wait):
        doing = self.doing[p]
        if verb in ("leave", "look"):
            return getattr(self, verb)(p, wait)
        wanted = {
            "try_swap": "TryAt", "draw": "Door", "install": "Drawn", "reach": "Owes", "meet": "Ticket",
            "see": "Watching", "break": "Watching", "decide": "Leaving", "settle": "Decided",
        }.get(verb, "Idle")
        method = getattr(self, "break_" if verb == "break" else verb)
        return method(p, *doing[1:]) if doing[0] == wanted else None

    def take(self, p):
        free = self.state > 0
        self.state -= 1
        if free:
            self.held[p] += 1
            return "Now", [("TakeNow", p)]
        self.doing[p] = ("Door",)
        return "Door", [("TakeDoor", p)]

    def try_load(self, p):
        if self.state <= 0:
            return "Busy", [("TryBusy", p)]
        self.doing[p] = ("TryAt", self.state)
        return f"Loaded({self.state})", []

    def try_swap(self, p, saw):
        self.doing[p] = IDLE
        if self.state != saw:
            return f"Contended {{ saw: {saw}, found: {self.state} }}", []
        self.state -= 1
        self.held[p] += 1
        return "Got", [("TryGot", p)]

    def draw(self, p):
        number = self.suspends
        self.suspends += 1
        self.cell(number)["owner"] = p
        self.doing[p] = ("Drawn", number)
        return f"Drew({number})", [("Enter", p, number)]

    def install(self, p, number):
        self.doing[p] = IDLE
        cell = self.cell(number)
        if cell["state"] == "Empty":
            cell["state"] = "Waiter"
            return f"Waits({number})", []
        if cell["state"] == "Broken":
            cell["collected"] = True
            return f"Broke({number})", [("Undo", p, number)]
        cell["state"] = "Taken"
        self.collect(p, cell)
        return f"Took({number})", [("Deliver", None, number)]

    def give(self, p):
        if self.held[p] == 0:
            return None
        somebody_waits = self.state < 0
        self.held[p] -= 1
        self.state += 1
        if somebody_waits:
            self.doing[p] = ("Owes",)
            return "Owes", [("GiveSent", p)]
        return "Freed", [("GiveFreed", p)]

    def reach(self, p):
        number = self.resumes
        self.resumes += 1
        self.cell(number)
        self.doing[p] = ("Ticket", number)
        return f"Reached({number})", []

    def meet(self, p, number):
        cell = self.cell(number)
        if self.is_sync and cell["state"] == "Cancelling":
            return f"Handling({number})", []
        self.doing[p] = IDLE
        if self.is_sync and cell["state"] == "Empty":
            cell["state"] = "Value"
            self.doing[p] = ("Watching", number)
            return f"Left({number})", []
        if cell["state"] == "Waiter":
            cell["state"] = "Resumed"
            return f"Served({number})", [("Deliver", None, number)]
        if cell["state"] in ("Empty", "Cancelling"):
            cell["state"] = {"Empty": "Value", "Cancelling": "Delegated"}[cell["state"]]
            return f"Left({number})", []
        if cell["state"] == "Cancelled":
            self.doing[p] = ("Owes",)
            return f"Passed({number})", []
        return f"Void({number})", []

    def see(self, p, number):
        if self.cell(number)["state"] == "Value":
            return "Pending", []
        self.doing[p] = IDLE
        return f"Served({number})", []

    def break_(self, p, number):
        self.doing[p] = IDLE
        cell = self.cell(number)
        if cell["state"] == "Value":
            cell["state"] = "Broken"
            self.held[p] += 1
            return f"Broke({number})", [("Spoil", p, number)]
        return f"Served({number})", []

    def leave(self, p, wait):
        cell = self.own_wait(p, wait)
        if cell and cell["state"] == "Waiter":
            cell["state"] = "Cancelling"
            self.doing[p] = ("Leaving", wait)
            return f"Cancelling({wait})", []
        if cell and cell["state"] == "Resumed":
            self.collect(p, cell)
            return f"TooLate({wait})", [("Late", p, wait)]
        return None

    def decide(self, p, wait):
        passes_on = self.state < 0
        self.state += 1
        self.doing[p] = ("Decided", wait, passes_on)
        return f"Decided({str(passes_on).lower()})", [("Leave", p, wait)]

    def settle(self, p, wait, passes_on):
        self.doing[p] = IDLE
        cell = self.cell(wait)
        if not passes_on:
            cell["state"] = "Refused"
            return f"Refused({wait})", []
        was_left = cell["state"] == "Delegated"
        cell["state"] = "Cancelled"
        if was_left:
            self.doing[p] = ("Owes",)
            return f"OwesOn({wait})", []
        return f"Cancelled({wait})", []

    def look(self, p, wait):
        cell = self.own_wait(p, wait)
        if cell and cell["state"] == "Waiter":
            return "Pending", [("LookPending", p, wait)]
        if cell and cell["state"] == "Resumed":
            self.collect(p, cell)
            return "Granted", [("LookGranted", p, wait)]
        return None


class Semaphore:
    """A semaphore with its line. An entry that may not come stops the script."""

    def __init__(self, permits):
        self.permits = permits
        self.free, self.way, self.held, self.next = permits, 0, 0, 0
        self.door, self.line, self.served = [], [], []
        self.spoiled = {}  # broken numbers whose suspend hasn't come to them: their callers, or None

    def early(self):
        return sum(wait >= self.next for wait in self.spoiled)

    def due(self):
        return len(self.door) + len(self.line) - self.early()

    def state(self):
        return self.free - (self.due() - self.way)

    def replay(self, verb, p, wait=None):
        if verb in ("TakeNow", "TryGot"):
            assert self.free > 0
            self.free, self.held = self.free - 1, self.held + 1
        elif verb == "TakeDoor":
            assert self.free == 0
            self.door.append(p)
        elif verb == "TryBusy":
            assert self.free == 0
        elif verb == "Enter":
            assert wait == self.next and (wait in self.spoiled or self.early() < len(self.door))
            self.door.remove(p)
            if wait in self.spoiled:
                self.spoiled[wait] = p
            else:
                self.line.append((wait, p))
            self.next += 1
        elif verb == "GiveFreed":
            assert self.held > 0 and self.way == self.due()
            self.held, self.free = self.held - 1, self.free + 1
        elif verb == "GiveSent":
            assert self.held > 0 and self.way < self.due()
            self.held, self.way = self.held - 1, self.way + 1
        elif verb == "Deliver":
            place = [w for w, _ in self.line].index(wait)
            assert place < self.way
            self.served.append(self.line.pop(place))
            self.way, self.held = self.way - 1, self.held + 1
        elif verb == "Spoil":
            assert self.way > 0
            waits = [w for w, _ in self.line[: self.way]]
            if wait in waits:
                self.spoiled[wait] = self.line.pop(waits.index(wait))[1]
            else:
                assert wait >= self.next and wait not in self.spoiled and self.early() < len(self.door)
                self.spoiled[wait] = None
            self.way, self.held = self.way - 1, self.held + 1
        elif verb == "Undo":
            assert self.spoiled.pop(wait) == p
        elif verb == "Leave":
            self.line.remove((wait, p))
            if self.way > self.due():
                self.way, self.free = self.way - 1, self.free + 1
        elif verb in ("Late", "LookGranted"):
            self.served.remove((wait, p))
        else:
            assert verb == "LookPending" and (wait, p) in self.line
        assert self.held + self.free + self.way == self.permits and self.way <= self.due()
        assert self.early() <= len(self.door) and (self.free == 0 or self.way == self.due())


def events(seed, count):
    """So many events of a small generator: a verb, a pass and a wait."""
    number = seed
    for _ in range(count):
        number = (number * 1_103_515_245 + 12_345) % 2_147_483_648
        yield VERBS[number // 4096 % 12], number // 64 % 3, number // 256 % 8


def likely(table, p):
    """The events that this pass is likely to make where the table stands."""
    if table.doing[p] != IDLE:
        return [(verb, p, 0) for verb in LIKELY[table.doing[p][0]].split()]
    made = [("take", p, 0), ("try_load", p, 0)] * (table.state > -3) + [("give", p, 0)] * 3 * (table.held[p] > 0)
    for wait, cell in enumerate(table.cells):
        if table.own_wait(p, wait) and cell["state"] in ("Waiter", "Resumed"):
            made += [("look", p, wait), ("leave", p, wait)]
    return made or [("-", p, 0)]


def likely_events(table, seed, count):
    """So many events that are likely where the table stands, or fewer."""
    number = seed
    for _ in range(count):
        number = (number * 6_364_136_223_846_793_005 + 1_442_695_040_888_963_407) % 2**64
        choices = likely(table, number // 2**40 % 3)
        event = choices[number // 2**48 % len(choices)]
        if event[0] != "-":
            yield event


def asked(verb, p, wait):
    return f"{verb} {p} {wait}" if verb in ("leave", "look") else f"{verb} {p}"


def told(verb, p, wait=None):
    fields = [f"pass: {p}"] * (p is not None) + [f"wait: {wait}"] * (wait is not None)
    return f"{verb} {{ {', '.join(fields)} }}"


def random_schedules():
    for seed, permits, count in [(1, 1, 60), (2, 1, 400), (3, 2, 60), (4, 2, 400), (5, 3, 400), (6, 1, 900)]:
        table = Table(permits)
        yield f"=== Seed {seed}: {count} events."
        yield f"core {permits} 3: Ok"
        for event in events(seed, count):
            outcome = (table.step(*event) or ("NotEnabled",))[0]
            yield f"{asked(*event)}: {outcome}"
        yield f"state: {table.state}"


def histories(seeds, is_sync):
    for seed in seeds:
        permits = seed % 3 + 1
        table, semaphore, history = Table(permits, is_sync), Semaphore(permits), []
        yield f"=== Seed {seed}, with {permits} permit{'s' * (permits > 1)}."
        yield f"{'sync' if is_sync else 'core'} {permits} 3: Ok"
        for event in likely_events(table, seed, 500) if is_sync else events(seed, 2000):
            made = table.step(*event)
            if made is not None:
                for entry in made[1]:
                    semaphore.replay(*entry)
                    history.append(entry)
                assert semaphore.state() == table.state
                yield f"{asked(*event)}: {made[0]}"
                yield f"state: {semaphore.state()}"
        yield f"entries: {len(history)}"
        for place, entry in enumerate(history):
            yield f"entry {place}: {told(*entry)}"


def stalls(name):
    """Counts the stalls of the schedules of a file: each pass stalls at each place, so that its events from there on come
    behind all others, and what may not come then is left out. At each end the permits must all be there."""
    schedules = []
    for line in (DATA / name).read_text().splitlines():
        words = [] if line.startswith("=== ") else line.split(": ")[0].split(" ")
        if words[:1] in (["core"], ["sync"]):
            schedules.append((words[0] == "sync", int(words[1]), int(words[2]), []))
        elif words and words[0] in VERBS + ["see", "break"]:
            schedules[-1][3].append((words[0], int(words[1]), int((words + ["0"])[2])))
    cases = left_out = 0
    for is_sync, permits, passes, schedule in schedules:
        for pass_, place in ((p, at) for p in range(passes) for at in range(len(schedule))):
            is_late = [at >= place and event[1] == pass_ for at, event in enumerate(schedule)]
            order = sorted(range(len(schedule)), key=lambda at: is_late[at])
            table, semaphore = Table(permits, is_sync), Semaphore(permits)
            for at in order:
                made = table.step(*schedule[at])
                left_out += made is None
                for entry in made[1] if made else []:
                    semaphore.replay(*entry)
            assert semaphore.free + semaphore.way + semaphore.held == permits
            assert semaphore.state() == table.state
            cases += 1
    return f"stalls: {len(schedules)} schedules, {cases} cases, {left_out} events left out, 0 failed"


(DATA / "random.schedules").write_text("\n".join(random_schedules()) + "\n")
(DATA / "histories.schedules").write_text("\n".join(histories(range(1, 13), False)) + "\n")
(DATA / "breaks.schedules").write_text("\n".join(histories(range(1, 7), True)) + "\n")
print(stalls("schedules.schedules"))
