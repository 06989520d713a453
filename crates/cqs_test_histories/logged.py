#!/usr/bin/env python3
"""Writes data/logged.cases: the histories of the calls that cqs_test_semaphore makes on a semaphore of the running queue, told by what they answered.

One caller makes them one after the other, so each answer tells its entries and their place. That the calls answer so is compared there, as the program runs.
The semaphore with its line is that of random.py of cqs_test_core, which knows nothing of the crates.
"""
import re
from pathlib import Path

HERE = Path(__file__).parent
exec((HERE.parent / "cqs_test_core" / "random.py").read_text().partition("\n\ndef events")[0])

# What each answer to a question says, as entries; K is the number of the wait. What isn't here says nothing.
SAID = {
    "acquire": {"Now": ["takenow 0"], "Later": ["takedoor 0", "enter 0 K"]},
    "try": {"Got": ["trygot 0"], "Busy": ["trybusy 0"]},
    "poll": {"Granted": ["granted 0 K"], "Pending": ["pending 0 K"]},
    "cancel": {"Cancelled": ["leave 0 K"], "TooLate": ["late 0 K"]},
    "release": {"Freed": ["givefreed 0"], "Sent": ["givesent 0", "deliver K"], "Under": ["givesent 0"]},
    "finish": {"Sent": ["deliver K"]},
}
VERB_OF = {it.lower(): it for it in "TakeNow TakeDoor TryGot TryBusy Enter GiveFreed GiveSent Deliver Leave Late".split()}
VERB_OF |= {"granted": "LookGranted", "pending": "LookPending"}


def runs(text):
    """The permits of each semaphore, and the entries that its answers tell."""
    permits, entries = None, []
    for line in filter(lambda it: not it.startswith("=== "), text.splitlines()):
        asked, _, answer = line.partition(": ")
        verb = asked.split()[0]
        if verb == "semaphore":
            if entries:
                yield permits, entries
            permits, entries = int(asked.split()[1]), []
            continue
        for entry in SAID.get(verb, {}).get(re.split("[ ,]", answer)[0], []):
            wait = asked.split()[1] if verb in ("poll", "cancel") else answer.split()[-1]
            entries.append(entry.replace("K", wait))
    yield permits, entries


def judged(permits, entries):
    semaphore = Semaphore(permits)
    for entry in entries:
        verb, *numbers = entry.split()
        numbers = [int(it) for it in numbers]
        semaphore.replay(VERB_OF[verb], *(numbers if verb != "deliver" else [None, *numbers]))
    s = semaphore
    return ["legal", f"free {s.free} way {s.way} door {len(s.door)} line {len(s.line)} next {s.next} held {s.held}"]


def cases():
    made = runs((HERE.parent / "cqs_test_semaphore" / "data" / "random.calls").read_text())
    for place, (permits, entries) in enumerate(made):
        given = [f"semaphore {permits}", *entries]
        yield "\n".join([f"=== The calls on semaphore {place}.", "check", *given, "---", *judged(permits, entries)]) + "\n"


(HERE / "data" / "logged.cases").write_text("".join(cases()))
