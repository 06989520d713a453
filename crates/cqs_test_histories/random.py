#!/usr/bin/env python3
"""Writes data/random.cases: schedules by chance with what they tell, their histories judged, and texts that are a little wrong.

The table of events and the semaphore with its line are those of random.py of cqs_test_core, which know nothing of the crates. What a synchronous core
does otherwise is told here, and so is the grammar of the texts, by regular expressions.
"""
import re
from pathlib import Path

HERE = Path(__file__).parent
exec((HERE.parent / "cqs_test_core" / "random.py").read_text().partition("\n\ndef random_schedules")[0])

ENTRIES = {"LookGranted": "granted", "LookPending": "pending"}
NUMBER = r"(0|[1-9]\d*)"
PASS_EVENTS = "take tryload tryswap draw install give reach meet see break decide settle".split()
PASS_ENTRIES = "takenow takedoor trygot trybusy givefreed givesent".split()
WAIT_ENTRIES = "enter spoil undo leave late granted pending".split()


class SyncTable(Table):
    """The table of events of a synchronous core: a resume watches the value that it left, and may break its cell."""

    def step(self, verb, p, wait):
        if verb in ("see", "break"):
            doing = self.doing[p]
            return self.watched(verb, p, doing[1]) if doing[0] == "Watching" else None
        return super().step(verb, p, wait)

    def install(self, p, number):
        cell = self.cell(number)
        if cell["state"] != "Broken":
            return super().install(p, number)
        cell["collected"] = True
        self.doing[p] = IDLE
        return f"Broke({number})", [("Undo", p, number)]

    def meet(self, p, number):
        state = self.cell(number)["state"]
        if state == "Cancelling":
            return f"Handling({number})", []
        answer = super().meet(p, number)
        if state == "Empty":
            self.doing[p] = ("Watching", number)
        return answer

    def watched(self, verb, p, number):
        cell = self.cell(number)
        if cell["state"] == "Value" and verb == "see":
            return "Pending", []
        self.doing[p] = IDLE
        if cell["state"] == "Value":
            cell["state"] = "Broken"
            self.held[p] += 1
            return f"Broke({number})", [("Spoil", p, number)]
        return f"Served({number})", []


class BreakingSemaphore(Semaphore):
    """A semaphore with its line and the numbers that were broken, each with its caller where it was drawn."""

    def __init__(self, permits):
        super().__init__(permits)
        self.spoiled = {}

    def early(self):
        return sum(number >= self.next for number in self.spoiled)

    def due(self):
        return super().due() - self.early()

    def replay(self, verb, p, wait=None):
        if verb == "Spoil":
            assert self.way > 0
            first = [number for number, _ in self.line[:self.way]]
            if wait in first:
                self.spoiled[wait] = self.line.pop(first.index(wait))[1]
            else:
                assert wait >= self.next and wait not in self.spoiled and self.early() < len(self.door)
                self.spoiled[wait] = None
            self.way, self.held = self.way - 1, self.held + 1
        elif verb == "Undo":
            assert wait in self.spoiled and self.spoiled[wait] == p
            del self.spoiled[wait]
        elif verb == "Enter" and wait == self.next and wait in self.spoiled:
            self.door.remove(p)
            self.spoiled[wait] = p
            self.next += 1
        else:
            assert verb != "Enter" or self.early() < len(self.door)
            super().replay(verb, p, wait)


def outcome(text):
    name, *numbers = re.findall(r"[A-Za-z]+|-?\d+", text)
    words = [name.lower()] + [it for it in numbers if it not in ("saw", "found")]
    return " ".join(words)


def entry(verb, p, wait=None):
    words = [ENTRIES.get(verb, verb.lower())] + [str(it) for it in (p, wait) if it is not None]
    return " ".join(words)


def made(seed, permits, count):
    """The events that may come of so many by chance, with what they answer, and the history."""
    table, lines, told, history = Table(permits), [], [], []
    for event in events(seed, count):
        answer = table.step(*event)
        if answer is not None:
            line = asked(*event).replace("_", "")
            lines.append(line)
            told.append(f"{line}: {outcome(answer[0])}")
            history += answer[1]
    return table, lines, told, history


def made_sync(seed, permits, count):
    """The same of a synchronous core. Few wait at a time, and callers come late to their cells, so that resumes often find nobody there."""
    table, lines, told, history, number = SyncTable(permits), [], [], [], seed
    verbs = [*VERBS, "see", "break"]
    for _ in range(count):
        number = (number * 1_103_515_245 + 12_345) % 2_147_483_648
        verb, p, wait = verbs[number // 4096 % len(verbs)], number // 64 % 3, max(table.suspends - 1 - number // 256 % 4, 0)
        late = verb in ("draw", "install", "decide") and number // 2**20 % 4
        answer = None if late or verb == "take" and table.state < 0 else table.step(verb, p, wait)
        if answer is not None:
            line = asked(verb, p, wait).replace("_", "")
            lines.append(line)
            told.append(f"{line}: {outcome(answer[0])}")
            history += answer[1]
    return table, lines, told, history


def judged(permits, history):
    semaphore = BreakingSemaphore(permits)
    for place, one in enumerate(history):
        try:
            semaphore.replay(*one)
        except (AssertionError, ValueError):
            return [f"not legal at line {place + 2}"]
    s = semaphore
    return ["legal", f"free {s.free} way {s.way} door {len(s.door)} line {len(s.line)} next {s.next} held {s.held}"]


def case(heading, command, given, wanted):
    return "\n".join([f"=== {heading}", command, *given, "---", *wanted]) + "\n"


def fits(words, heads, passes, waits, pairs):
    """Whether the words are a verb and its numbers, each in its range."""
    name = words.partition(" ")[0]
    found = re.fullmatch(rf"[a-z]+((?: {NUMBER})+)", words, re.A)
    if not found:
        return False
    numbers = [int(it) for it in found[1].split()]
    if name in heads:
        return all(1 <= it <= most for it, most in zip(numbers, heads[name])) and len(numbers) == len(heads[name])
    if name in waits:
        return len(numbers) == 1 and numbers[0] < 2**40
    if name in pairs:
        return len(numbers) == 2 and numbers[0] < 2**32 and numbers[1] < 2**40
    return name in passes and len(numbers) == 1 and numbers[0] < 2**32


def first_bad(text, head, **verbs):
    """The first line that breaks the form, if one does."""
    lines = text.split("\n")
    for place, line in enumerate(lines):
        if place == len(lines) - 1 and place > 0 and line == "":
            return None
        if place == len(lines) - 1:
            return place + 1
        sized = line.removesuffix(" sync") if "core" in head else line
        right = fits(sized, head, (), (), ()) if place == 0 else fits(line, {}, **verbs)
        if not right:
            return place + 1


def wrong_texts(seed, core, lines, history):
    """A schedule and a history, each with one byte or line changed by chance."""
    number = seed
    schedule, entries = [core, *lines], ["semaphore 2", *(entry(*one) for one in history)]
    for which in range(60):
        number = (number * 1_103_515_245 + 12_345) % 2_147_483_648
        is_schedule = which % 2 == 0
        lines = [*schedule] if is_schedule else [*entries]
        at = number // 256 % len(lines)
        line = lines[at]
        place = number // 4096 % len(line)
        changes = [
            line[:place] + line[place + 1:], line[:place] + " " + line[place:], line[:place] + "0" + line[place:],
            line + " 1", line + "0", line[:place] + "x" + line[place + 1:], line.replace(" ", "  "), line + " ", " " + line,
            line + "99999999999", line.upper(), line.replace(" ", " 0"), line.replace(" ", " +"), "", line.partition(" ")[0],
        ]
        lines[at] = changes[number // 65536 % len(changes)]
        text = "\n".join(lines) + "\n"
        if is_schedule:
            bad = first_bad(text, {"core": (2**20, 32)}, passes=PASS_EVENTS, waits=(), pairs=("leave", "look"))
            wanted = lines if bad is None else [f"bad schedule: line {bad}"]
            yield case(f"Wrong schedule {which}.", "rewrite", lines, wanted)
        else:
            bad = first_bad(text, {"semaphore": (2**20,)}, passes=PASS_ENTRIES, waits=("deliver",), pairs=WAIT_ENTRIES)
            if bad is not None:
                yield case(f"Wrong history {which}.", "check", lines, [f"bad history: line {bad}"])


def runs():
    """The runs by chance: what each is called, its head, its permits, and what comes of it."""
    for seed in range(1, 11):
        permits = seed % 3 + 1
        yield seed, f"Seed {seed}", f"core {permits} 3", permits, made(seed, permits, 900)
    for seed in range(1, 9):
        permits = seed % 3 + 1
        yield seed, f"Seed {seed}, synchronous", f"core {permits} 3 sync", permits, made_sync(seed, permits, 1200)


def cases():
    for seed, called, core, permits, (table, lines, told, history) in runs():
        schedule = [core, *lines]
        state = f"state {table.state} suspends {table.suspends} resumes {table.resumes}"
        entries = [entry(*one) for one in history]
        yield case(f"{called}.", "replay", schedule, [*told, state])
        yield case(f"{called}.", "rewrite", schedule, schedule)
        yield case(f"{called}.", "history", schedule, [f"semaphore {permits}", *entries])
        yield case(f"{called}.", "check", [f"semaphore {permits}", *entries], judged(permits, history))
        for place in range(seed, len(history), 17):
            changed = history[:place] + history[place + 1:]
            if seed % 2:
                changed = history[:place] + history[place:place + 2][::-1] + history[place + 2:]
            lines_of = [entry(*one) for one in changed]
            yield case(f"{called}, changed at {place}.", "check", [f"semaphore {permits}", *lines_of], judged(permits, changed))
    yield from wrong_texts(5, "core 2 3", *made(6, 2, 40)[1::2])
    yield from wrong_texts(9, "core 2 3 sync", *made_sync(3, 2, 90)[1::2])


(HERE / "data" / "random.cases").write_text("".join(cases()))
