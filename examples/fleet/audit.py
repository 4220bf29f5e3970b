"""The auditor of the fleet: takes a plate that nobody has audited, plays its job's recording from the first save on, and keeps
what the audit says, until no job waits and every plate has its answers.

usage: python3 audit.py URL SEED [--die POINT:COUNT] [--break HOW]

The answers are the events of docs/AUDIT.md, a line each: which frame and which registers the capture took, each stop and
resume, its cycles, its plate and the verdict, what else changed, the summary. The auditor tells and dies as a worker does: t
took a plate, k audited it, s wrote the answers, c committed, i found no plate that is free. --break audit gives each plate
the answers of another one, which the soak must see.
"""

import sys
import time

from worker import Worker, main

import database as jobs
from gulxinett import Audit, Cartridge


class Auditor(Worker):
    def work(self):
        """Works until no job waits and every plate has its answers."""
        while True:
            plate = jobs.take_plate(self.database)
            if plate is None:
                self.told(b"i")
                if jobs.waiting(self.database) == 0 and jobs.unanswered(self.database) == 0:
                    return
                time.sleep(0.1)
                continue
            self.told(b"t", "take")
            id, first = plate
            if self.broken == "audit":
                events = answers(first, jobs.recorded(self.database, id % jobs.most(self.database) + 1))
            else:
                events = answers(first, jobs.recorded(self.database, id))
            self.told(b"k", "tick")
            jobs.answer(self.database, id, events)
            self.told(b"s", "save")
            self.database.commit()
            self.told(b"c", "commit")


def answers(first, recording):
    """What the audit says of a recording, which is in pieces, over the RAM of the save that it began with."""
    audit = Audit(Cartridge.restore(first).battery())
    events = [event for piece in recording for event in audit.feed(piece.encode("ascii"))]
    return "".join(events + audit.finish())


def events_of(answers):
    """The events of an audit by their names, each as its keys and values."""
    events = {}
    for line in answers.splitlines():
        words = line.split(" ")
        event = dict(zip(words[::2], words[1::2]))
        events.setdefault(event["event"], []).append(event)
    return events


if __name__ == "__main__":
    main(Auditor, sys.argv[1:])
