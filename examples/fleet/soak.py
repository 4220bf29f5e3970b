"""Kills the workers of a fleet again and again, lets the rest finish, and looks at every plate and at its audit.

usage: python3 soak.py --workers-in FOLDER [--jobs N] [--kills N] [--damages N] [--database URL] [--seed N] [--workers N]
                       [--kinds python,c] [--break HOW] [--keep]

../../soak builds what this needs, and calls it. By the seed come the jobs with their photographs, choices and albums, the
damages, and for each worker and auditor in turn its kind, its pieces and where or when it is killed; which job it has then
is the machine's timing.
"""

import argparse
import contextlib
import ctypes
import os
import pwd
import random
import resource
import select
import shutil
import signal
import subprocess
import sys
import tempfile
import threading
import time
import zlib
from collections import Counter
from pathlib import Path

HERE = Path(__file__).resolve().parent
ROOT = HERE.parents[1]
sys.path[:0] = [str(ROOT / "bindings" / "python"), str(HERE)]
import audit
import database as jobs
from gulxinett import FRAME_BYTES, LAYOUT, PICTURE_BYTES, PICTURE_OFFSET, RAM_BANK, REGISTERS, Cartridge
from worker import start

BUS = ROOT / "target" / "native" / "bus"
# The kinds of workers that are in Python.
PROGRAMS = {"python": "worker.py", "auditor": "audit.py"}
# How often in a row a worker may be silent for how many seconds before it counts as hung; when the whole soak is stopped and
# goes on later, that is one such time.
SILENCES, SILENCE = 6, 30
# Settings of our own server: workers are killed here and not the machine, so the disk need not be waited for.
UNFLUSHED = ("-c", "fsync=off", "-c", "full_page_writes=off")
# A worker that is killed at a random moment is killed within this time of taking its first job, in seconds.
SOON = 0.04
# Jobs that are damaged at a time.
ROUND = 250
# What a worker was doing, by the last byte that it told.
MOMENTS = {
    b"t": "between taking a job and the tick's end",
    b"k": "between tick and save",
    b"s": "between save and commit",
    b"c": "between two pieces",
    b"a": "between two pieces",
}
# What the summary of a plate's audit says: no line that was refused, and one capture, which ended whole.
SUMMARY = dict(malformed="0", refused="0", captures="1", ended="1", whole="1", touched="0", dropped="0", held="0")
# What --break tries: each spoils one thing that is told in the end.
BREAKS = ("mixed", "cycles", "outside", "touched", "audit", "lost", "dies")


def say(text):
    print("soak: " + text, flush=True)


class Failure(Exception):
    """Something is not as it must be."""


# ---- what the jobs are, by the seed


def patterns():
    """A few scenes of red, green and blue, from which the photographs are made."""
    spots = [(x, y) for y in range(128) for x in range(128)]
    shapes = [
        lambda x, y: (x * x + y * y) // 40,
        lambda x, y: x * 2,
        lambda x, y: (x // 8 ^ y // 8) * 16 + x,
        lambda x, y: abs(x - 64) * 2 + abs(y - 60) * 2,
        lambda x, y: x * y // 50,
        lambda x, y: 255 if (x - 70) ** 2 + (y - 50) ** 2 < 1500 else y,
    ]
    return [bytes(b & 255 for x, y in spots for b in (shape(x, y), shape(y, x), shape(x, y) // 2)) for shape in shapes]


def brightness(wanted, exposure):
    """The level that comes to about a wanted one under an exposure, by steps 1 and 2 of the paper."""
    return min(255, max(0, 128 + (wanted * 256 // exposure - 128) * 8 // 5))


def specimen(chance, scenes):
    """A photograph that no other job has, lit so that its picture is not all black or white, and a choice."""
    exposure, shift, slope = chance.randrange(0x00A0, 0x0300), chance.randrange(256), chance.choice((1, 3, 253, 255))
    levels = [(slope * level + shift) % 256 for level in range(256)]
    colours = chance.choice(scenes).translate(bytes(brightness(90 + level * 140 // 255, exposure) for level in levels))
    turn = 3 * chance.randrange(FRAME_BYTES)
    mode = chance.choice((0, 0, 2, 2, 3, 4, 12, 13, 14, 14, 15))
    return jobs.Specimen(
        photograph=b"P6\n128 128\n255\n" + colours[turn:] + colours[:turn],
        light=chance.randrange(2),
        level=chance.randrange(16),
        plain=chance.randrange(2),
        exposure=exposure,
        # the trigger, with the 1-D filter's setting; N and VH; E3, the edges' strength and, at times, the inversion
        a000=chance.choice((3, 3, 3, 1, 5)),
        a001=(mode & 8) << 4 | (mode & 6) << 4,
        a004=(mode & 1) << 7 | chance.randrange(8) << 4 | chance.choice((0, 0, 0, 8)),
    )


def album(chance):
    """A cartridge's RAM, full of anything: mostly of one bank, as the program that plays recordings has."""
    return chance.randbytes(RAM_BANK * chance.choice((1, 1, 1, 1, 1, 1, 1, 2)))


def add_jobs(database, chance, scenes, first, count):
    """Adds jobs by their numbers; each has the save of a cartridge that nothing was done with."""
    database.begin()
    for id in range(first, first + count):
        save = Cartridge.from_battery(album(chance)).save()
        database.run(
            "INSERT INTO gulxinett_job (id, first, save, %s) VALUES (?, ?, ?, ?, ?, ?, ?, ?, ?, ?, ?)" % jobs.SPECIMEN,
            id, save, save, *specimen(chance, scenes),
        )
    database.commit()


# ---- a server of our own


def stops_with_parent():
    """In the server's process: it gets its signal for a fast end when this program ends, however that ends."""
    ctypes.CDLL(None).prctl(1, signal.SIGINT)


@contextlib.contextmanager
def own_server(folder):
    """A PostgreSQL server of the distribution's, on a Unix socket in a folder, for as long as this is open; its URL."""
    found = sorted(ROOT.glob("tools/target/postgresql-*/usr/lib/postgresql/*/bin")) or sorted(
        Path("/usr/lib/postgresql").glob("*/bin"), key=lambda path: int(path.parent.name)
    )
    if not found:
        raise Failure("PostgreSQL's server is not here: neither in /usr/lib/postgresql nor in tools/target")
    programs, environment = found[-1], dict(os.environ, LC_ALL="C")
    if ROOT in programs.parents:
        libraries = programs.parents[4].glob("usr/lib/*-linux-gnu")
        environment["LD_LIBRARY_PATH"] = ":".join([*map(str, libraries), os.environ.get("LD_LIBRARY_PATH", "")])
    place = folder / "server"
    place.mkdir()
    who = {}
    if os.getuid() == 0:
        # the server won't run as root
        names = [entry.pw_name for entry in pwd.getpwall()]
        user = pwd.getpwnam("postgres" if "postgres" in names else "nobody")
        who = {"user": user.pw_uid, "group": user.pw_gid, "extra_groups": []}
        folder.chmod(0o711)
        os.chown(place, user.pw_uid, user.pw_gid)
    data = place / "data"
    log = open(folder / "server.log", "wb")
    made = subprocess.run(
        [programs / "initdb", "-D", data, "-U", "fleet", "-A", "trust", "-E", "UTF8", "--no-sync"],
        env=environment, cwd="/", stdin=subprocess.DEVNULL, stdout=log, stderr=log, **who,
    )
    if made.returncode != 0:
        raise Failure("initdb failed: " + (folder / "server.log").read_text()[-500:])
    server = subprocess.Popen(
        [programs / "postgres", "-D", data, "-k", place, "-c", "listen_addresses=", "-c", "max_wal_size=1GB", *UNFLUSHED],
        env=environment, cwd="/", stdin=subprocess.DEVNULL, stdout=log, stderr=log, start_new_session=True,
        preexec_fn=stops_with_parent, **who,
    )
    try:
        deadline = time.monotonic() + 60
        while not (place / ".s.PGSQL.5432").exists():
            if server.poll() is not None or time.monotonic() > deadline:
                raise Failure("the server did not start: " + (folder / "server.log").read_text()[-500:])
            time.sleep(0.05)
        url = "postgresql://fleet@/postgres?host=%s" % place
        while True:
            try:
                jobs.connect(url).connection.close()
                break
            except Exception:
                if time.monotonic() > deadline:
                    raise
                time.sleep(0.05)
        version = subprocess.check_output([programs / "postgres", "--version"], env=environment, text=True).strip()
        say("a server of %s on a Unix socket" % version)
        yield url
    finally:
        # a fast shutdown: whoever is connected still is cut off
        server.send_signal(signal.SIGINT)
        try:
            server.wait(60)
        except subprocess.TimeoutExpired:
            server.kill()
        log.close()


# ---- workers, and their ends


class Fleet:
    """Workers that are started, killed and counted; each slot has one at a time."""

    def __init__(self, options, url, folder, chance, of_auditors):
        self.options, self.url, self.folder, self.chance, self.of_auditors = options, url, folder, chance, of_auditors
        self.lock = threading.Lock()
        self.finished = threading.Event()
        self.auditors_killed = 0
        self.began = time.monotonic()
        self.wrong = []
        self.kills_due = options.kills
        self.kills = 0
        self.moments = Counter()
        self.by_kind = Counter()

    def words(self, kind, seed, die):
        """The command of a worker."""
        if kind in PROGRAMS:
            # -S: it needs nothing that is installed but what PYTHONPATH names
            command = [sys.executable, "-S", str(HERE / PROGRAMS[kind]), self.url, str(seed)]
            command += ["--break", self.options.broken] if self.options.broken else []
        else:
            name = "worker-sqlite" if self.url.startswith("sqlite:") else "worker-postgres"
            command = [str(Path(self.options.workers_in) / name), self.url, str(seed)]
        return command + (["--die", die] if die else [])

    def fate(self):
        """The next worker by the seed: its kind, its seed, and how it dies: at a point, or a while after it took a job."""
        with self.lock:
            kind = self.chance.choice(self.options.kinds)
            seed = self.chance.randrange(1 << 32)
            how = self.chance.random()
            point = "take" if how < 0.1 else "tick" if how < 0.3 else "save" if how < 0.5 else "commit" if how < 0.55 else ""
            if point:
                return kind, seed, "%s:%d" % (point, self.chance.randrange(1, 5)), None
            return kind, seed, "", self.chance.random() * SOON

    def live(self, kind, seed, die, delay):
        """One worker from its start to its end; the bytes it told, and how it ended."""
        with open(self.folder / "workers.log", "ab") as log:
            worker = subprocess.Popen(self.words(kind, seed, die), stdin=subprocess.DEVNULL, stdout=subprocess.PIPE, stderr=log)
        told, out, kill_at, silent = b"", worker.stdout.fileno(), None, 0
        while True:
            if self.wrong:
                # the soak has failed, so nothing need be waited for
                worker.kill()
            wait = SILENCE if kill_at is None else max(0, kill_at - time.monotonic())
            ready = select.select([out], [], [], wait)[0]
            if kill_at is not None and time.monotonic() >= kill_at:
                worker.kill()
                delay = kill_at = None
                continue
            if not ready:
                silent += 1
                if silent == SILENCES:
                    worker.kill()
                    self.wrong.append("a worker in %s was silent for %d seconds" % (kind, SILENCES * SILENCE))
                continue
            silent = 0
            piece = os.read(out, 65_536)
            if not piece:
                break
            told += piece
            if delay is not None and kill_at is None and b"t" in told:
                kill_at = time.monotonic() + delay
        worker.stdout.close()
        return told, worker.wait()

    def slot(self, more_jobs):
        """Starts one worker after the other until the kills are delivered."""
        try:
            while not self.wrong:
                with self.lock:
                    if self.kills_due == 0:
                        return
                    # one kill is this life's, unless it ends before
                    self.kills_due -= 1
                kind, seed, die, delay = self.fate()
                told, code = self.live(kind, seed, die, delay)
                with self.lock:
                    working = b"t" in told and told[-1:] in MOMENTS
                    if code == -signal.SIGKILL and working:
                        self.kills += 1
                        self.by_kind[kind] += 1
                        self.moments[MOMENTS[told[-1:]]] += 1
                        if self.kills % 1_000 == 0:
                            say("%d kills so far, %.0f seconds" % (self.kills, time.monotonic() - self.began))
                    elif code in (0, -signal.SIGKILL):
                        self.kills_due += 1
                        more_jobs()
                    else:
                        self.wrong.append("a worker in %s ended by itself with %d" % (kind, code))
        except Exception as reason:
            self.wrong.append("a slot failed: %r" % reason)

    def run(self, what, *words):
        """Lets every slot do something at once."""
        threads = [threading.Thread(target=what, args=words) for _ in range(self.options.workers)]
        for thread in threads:
            thread.start()
        for thread in threads:
            thread.join()
        if self.wrong:
            said = (self.folder / "workers.log").read_text(errors="replace")[-1000:]
            raise Failure("; ".join(self.wrong[:3]) + ("\n" + said if said else ""))

    def unkilled(self):
        """A worker that nobody kills, until no job waits."""
        kind, seed, _, _ = self.fate()
        _, code = self.live(kind, seed, "", None)
        if code != 0 and not self.wrong:
            self.wrong.append("a worker in %s that nobody killed ended with %d" % (kind, code))

    def audits(self):
        """One auditor after the other beside the workers, until these have finished; each is killed at a point."""
        while not self.wrong and not self.finished.is_set():
            point = self.of_auditors.choice(("take", "tick", "save", "commit"))
            _, code = self.live("auditor", 0, "%s:%d" % (point, self.of_auditors.randrange(1, 30)), None)
            if code == 0:
                # there was nothing to audit
                self.finished.wait(0.5)
            elif code == -signal.SIGKILL:
                self.auditors_killed += 1
            else:
                self.wrong.append("an auditor ended by itself with %d" % code)

    def last_audits(self):
        """An auditor that nobody kills, until every plate has its answers."""
        _, code = self.live("auditor", 0, "", None)
        if code != 0 and not self.wrong:
            self.wrong.append("an auditor that nobody killed ended with %d" % code)

    @contextlib.contextmanager
    def audited(self):
        """Auditors beside whatever is done meanwhile."""
        auditors = threading.Thread(target=self.audits)
        auditors.start()
        try:
            yield
        except BaseException:
            self.wrong.append("the soak was ended")
            raise
        finally:
            self.finished.set()
            auditors.join()


# ---- what came of it


def afresh(own, first):
    """The RAM that a job must leave, and its total cycles: the album it had, and the picture afresh of its own photograph."""
    cartridge = Cartridge.restore(first)
    album = bytearray(cartridge.battery())
    start(cartridge, own)
    # the paper's formula; N is bit 7 of register 1
    total = 32_446 + (0 if own.a001 & 0x80 else 512) + 16 * own.exposure
    album[PICTURE_OFFSET : PICTURE_OFFSET + PICTURE_BYTES] = cartridge.picture()
    return bytes(album), total


def light(photograph):
    """The frame of a photograph: (2R + 5G + B) / 8 of each pixel."""
    colours = photograph[-3 * FRAME_BYTES :]
    return bytes((2 * r + 5 * g + b) // 8 for r, g, b in zip(colours[::3], colours[1::3], colours[2::3]))


def taken(own):
    """The registers that a start with a job's own choice takes, as an audit has them."""
    cartridge = Cartridge()
    start(cartridge, own)
    return cartridge.parts().state[-REGISTERS:].hex().upper()


def told_otherwise(answers, own, total, plate):
    """In what the answers of an audit differ from what a plate must be: of its own frame, under its own registers, with its total
    cycles, whole, and nothing else changed."""
    events = audit.events_of(answers or "")
    (begun, *more), (ended, *_), (summary, *_) = (events.get(event) or [{}] for event in ("start", "end", "summary"))
    found = {
        "frame": begun.get("image") == "%08X" % zlib.crc32(light(own.photograph)) and not more,
        "registers": begun.get("registers") == taken(own),
        "cycles": ended.get("cycles") == str(total),
        "plate": ended.get("plate") == "%08X" % zlib.crc32(plate),
        "verdict": ended.get("verdict") == "whole",
        "outside": "unchanged" in events and "changed" not in events,
        "summary": {key: summary.get(key) for key in SUMMARY} == SUMMARY,
    }
    return [what for what, same in found.items() if not same]


def played(recording):
    """What the program `bus` makes of a recording: the running cycles that it answers, and the picture area read out."""
    reads = b"02400000\n" + b"".join(b"01%04X\n" % (0xA000 + PICTURE_OFFSET + k) for k in range(PICTURE_BYTES))
    script = recording.encode("ascii")
    answers = subprocess.run([BUS], input=script + reads, stdout=subprocess.PIPE, check=True).stdout.split()
    cycles = sum(int(answer[2:], 16) for answer in answers if len(answer) == 10)
    return cycles, bytes.fromhex(b"".join(answer[2:] for answer in answers[-PICTURE_BYTES:]).decode("ascii"))


def without(ram, area):
    """The bytes of a RAM outside the picture area."""
    return ram[: area.start] + ram[area.stop :]


def judged(database):
    """Looks at every job: a count for each thing that is told."""
    count, plates = Counter(), set()
    column = "status, first, save, plate, audit, cycles, started, ended, outside, pieces, hands, " + jobs.SPECIMEN
    for (id,) in database.look("SELECT id FROM gulxinett_job ORDER BY id"):
        row = database.look("SELECT %s FROM gulxinett_job WHERE id = ?" % column, id)[0]
        status, first, save, plate, answers, cycles, started, ended, outside, pieces, hands, *own = row
        own, lines = jobs.Specimen(*own), [text for (text,) in database.look(jobs.RECORDED, id)]
        recording = "".join(lines)
        count["jobs"] += 1
        count["saves"] += pieces
        count["recorded"] += len(recording)
        count["longest"] = max(count["longest"], len(recording))
        count["both kinds"] += len(set(hands)) > 1
        count["other kind"] += hands[:1] != hands[-1:]
        if status != "done":
            count["lost"] += 1
            continue
        wanted, total = afresh(own, first)
        cartridge = Cartridge.restore(save)
        ram, same = cartridge.battery(), Cartridge.from_battery(wanted).plate()
        area = slice(PICTURE_OFFSET, PICTURE_OFFSET + PICTURE_BYTES)
        count["own" if ram[area] == wanted[area] and plate == same else "mixed"] += 1
        plates.add(zlib.crc32(plate))
        count["outside"] += max(outside, sum(a != b for a, b in zip(without(ram, area), without(wanted, area))))
        count["exact" if cycles == total and (started, ended) == (1, 1) else "inexact"] += 1
        same_again = len(lines) == pieces and played(recording) == (cycles, ram[area])
        count["played" if same_again else "not played"] += 1
        otherwise = told_otherwise(answers, own, total, plate)
        count["audited" if not otherwise else "otherwise"] += 1
        count.update("audit: " + what for what in otherwise)
    count["different"] = len(plates)
    kept = "SELECT coalesce(sum(%s(lines)), 0) FROM gulxinett_recording" % database.taken_by
    count["kept"] = int(database.look(kept)[0][0])
    return count


# ---- damages


def sealed(body):
    """A file with a right checksum, whatever comes before it."""
    return body + zlib.crc32(body).to_bytes(4, "little")


def damaged(chance, save, other):
    """What became of a save: its kind and its bytes, which are never a save."""
    kind = chance.choice(("a bit flipped", "cut short", "of another layout", "torn between two saves", "bytes lost"))
    place = chance.randrange(len(save))
    if kind == "a bit flipped":
        return kind, save[:place] + bytes([save[place] ^ 1 << chance.randrange(8)]) + save[place + 1 :]
    if kind == "cut short":
        return kind, save[:place]
    if kind == "of another layout":
        layout = chance.choice([number for number in range(256) if number != LAYOUT])
        return kind, sealed(save[:7] + bytes([layout]) + save[8:-4])
    if kind == "bytes lost":
        return kind, save[:place] + save[place + chance.randrange(1, 4_000) :]
    # some bytes of the one and the rest of the other; where that is one of the two, a bit more
    torn = save[:place] + other[place:]
    return kind, torn if torn not in (save, other) else torn[:-1]


def half_done(chance, scenes):
    """Saves of captures that are under way, all of one bank."""
    saves = []
    for _ in range(16):
        cartridge = Cartridge.from_battery(chance.randbytes(RAM_BANK))
        start(cartridge, specimen(chance, scenes))
        cartridge.tick(chance.randrange(1, 32_000))
        saves.append(cartridge.save())
    return saves


def damage(fleet, database, chance, scenes, count):
    """Has workers take jobs whose saves are damaged: each is set aside by its number, and no worker dies of it."""
    kinds = Counter()
    saves = half_done(chance, scenes)
    database.begin()
    database.run("DELETE FROM gulxinett_recording")
    database.run("DELETE FROM gulxinett_job")
    database.commit()
    add_jobs(database, chance, scenes, 1, min(ROUND, count))
    left = count
    while left > 0:
        broken = []
        database.begin()
        database.run("UPDATE gulxinett_job SET status = 'done', reason = ''")
        for id in range(1, min(ROUND, left) + 1):
            save, other = chance.sample(saves, 2)
            kind, file = damaged(chance, save, other)
            kinds[kind] += 1
            broken.append((id, kind, file))
            database.run("UPDATE gulxinett_job SET status = 'waiting', save = ? WHERE id = ?", file, id)
        database.commit()
        fleet.run(fleet.unkilled)
        for id, kind, file in broken:
            status, reason, save, pieces = database.look(
                "SELECT status, reason, save, pieces FROM gulxinett_job WHERE id = ?", id
            )[0]
            layout = "layout %d," % file[7] if kind == "of another layout" else ""
            if status != "aside" or not reason.startswith("the save is refused as 8: ") or layout not in reason:
                raise Failure("a save that was %s: the job is %s (%s)" % (kind, status, reason))
            if save != file or pieces != 0:
                raise Failure("a save that was %s was written to" % kind)
        left -= len(broken)
    return kinds


# ---- the whole


def processor_seconds():
    """What the processes that this one started, and that have ended, took of the processor."""
    used = resource.getrusage(resource.RUSAGE_CHILDREN)
    return used.ru_utime + used.ru_stime


def soak(options, url, folder):
    """Runs, kills, judges and tells; true if all is as it must be."""
    scenes = patterns()
    database = jobs.connect(url)
    try:
        database.create()
    except Exception as reason:
        raise Failure("the tables gulxinett_job and gulxinett_recording can't be made: %s" % reason) from None
    # each has a chance of its own, so that one does not move the others
    kinds = ("jobs", "workers", "auditors", "damages")
    of_jobs, of_workers, of_auditors, of_damages = (random.Random("%d %s" % (options.seed, what)) for what in kinds)
    add_jobs(database, of_jobs, scenes, 1, options.jobs)
    total = options.jobs

    def more_jobs():
        """Further jobs where all were done before the kills were."""
        nonlocal total
        if options.broken == "lost":
            # what is lost does not wait any more
            fleet.kills_due = 0
        other = jobs.connect(url)
        if jobs.waiting(other) == 0 and fleet.kills_due > 0:
            add_jobs(other, of_jobs, scenes, total + 1, max(4, options.jobs // 8))
            total += max(4, options.jobs // 8)
        other.connection.close()

    fleet = Fleet(options, url, folder, of_workers, of_auditors)
    used = processor_seconds()
    with fleet.audited():
        fleet.run(fleet.slot, more_jobs)
        killed = time.monotonic()
        fleet.run(fleet.unkilled)
    fleet.run(fleet.last_audits)
    finished = time.monotonic()
    used = processor_seconds() - used
    count = judged(database)
    say("jobs: %d, kills: %d, saves: %d" % (count["jobs"], fleet.kills, count["saves"]))
    say("%.1f seconds with kills, %.1f to finish what was left, %.1f to look at every job; %d workers at a time, seed %d" % (
        killed - fleet.began, finished - killed, time.monotonic() - finished, options.workers, options.seed))
    say("processor seconds of the workers and auditors: %.1f" % used)
    say("kills of workers in " + ", ".join("%s: %d" % (kind, fleet.by_kind[kind]) for kind in dict.fromkeys(options.kinds)))
    for moment in dict.fromkeys(MOMENTS.values()):
        say("kills %s: %d" % (moment, fleet.moments[moment]))
    say("jobs that both kinds of workers had in hand: %d; begun by one kind and finished by the other: %d" % (
        count["both kinds"], count["other kind"]))
    say("plates that equal the picture afresh of their own photograph: %d" % count["own"])
    say("plates that do not: %d" % count["mixed"])
    say("different plates among them: %d" % count["different"])
    say("plates whose cycles were counted as exactly their total: %d" % count["exact"])
    say("plates whose cycles were not: %d" % count["inexact"])
    say("bytes changed outside the area: %d" % count["outside"])
    say("jobs lost: %d" % count["lost"])
    say("recordings that the program plays to the same cycles and plate: %d" % count["played"])
    say("recordings that it does not: %d" % count["not played"])
    say("bytes of the recordings: %d, of the longest %d; as the database keeps them: %d" % (
        count["recorded"], count["longest"], count["kept"]))
    say("audits that answer the plate's own frame, registers and cycles, whole, nothing else changed: %d; auditors killed: %d" % (
        count["audited"], fleet.auditors_killed))
    wrong = ["%s: %d" % (key[len("audit: ") :], count[key]) for key in sorted(count) if key.startswith("audit: ")]
    say("audits that do not: %d%s" % (count["otherwise"], " (%s)" % ", ".join(wrong) if wrong else ""))
    must_be_none = ("mixed", "inexact", "outside", "lost", "not played", "otherwise")
    good = not any(count[what] for what in must_be_none) and fleet.kills == options.kills and count["own"] == count["jobs"]
    if options.damages and good:
        began = time.monotonic()
        kinds = damage(fleet, database, of_damages, scenes, options.damages)
        say("damaged saves: %d, each refused as 8 and its job set aside with a sentence; workers that died of one: 0" %
            sum(kinds.values()))
        say("%.1f seconds for them" % (time.monotonic() - began))
        say("damages: " + ", ".join("%s: %d" % pair for pair in sorted(kinds.items())))
    if not options.keep:
        database.begin()
        database.run("DROP TABLE gulxinett_recording")
        database.run("DROP TABLE gulxinett_job")
        database.commit()
    database.connection.close()
    return good


def read_words(words):
    reader = argparse.ArgumentParser(prog="soak", description="Kills the workers of a fleet and looks at every plate.")
    reader.add_argument("--jobs", type=int, help="at least so many jobs; a third of the kills if not named")
    reader.add_argument("--kills", type=int, default=200)
    reader.add_argument("--damages", type=int, default=250, help="damaged saves that workers are given in the end")
    reader.add_argument(
        "--database", default="sqlite", help="sqlite, sqlite:FILE, postgres (a server of its own) or a URL postgresql://.."
    )
    reader.add_argument("--seed", type=int, default=1)
    reader.add_argument("--workers", type=int, default=4, help="workers at a time")
    reader.add_argument(
        "--kinds", default="python,c", help="python, c or both with a comma; one named twice is taken twice as often"
    )
    reader.add_argument(
        "--break", dest="broken", choices=BREAKS, help="spoil the workers in Python or the auditors, to see that the soak sees it"
    )
    reader.add_argument("--keep", action="store_true", help="leave the tables in the database")
    reader.add_argument("--workers-in", help=argparse.SUPPRESS)
    options = reader.parse_args(words)
    options.kinds = options.kinds.split(",")
    if not set(options.kinds) <= {"python", "c"}:
        reader.error("--kinds has python and c alone")
    options.jobs = max(options.jobs or options.kills // 3, 2)
    if options.workers < 1 or options.kills < 0 or options.damages < 0:
        reader.error("a count is below what it can be")
    return options


def main(words):
    options = read_words(words)
    signal.signal(signal.SIGTERM, lambda *_: sys.exit("soak: ended from outside"))
    folder = Path(tempfile.mkdtemp(prefix="gulxinett-soak-"))
    try:
        with contextlib.ExitStack() as open_things:
            if options.database == "postgres":
                url = open_things.enter_context(own_server(folder))
            elif options.database == "sqlite":
                url = "sqlite:%s" % (folder / "jobs.db")
            else:
                url = options.database
            good = soak(options, url, folder)
    except Failure as reason:
        sys.exit("soak: FAILED: %s" % reason)
    finally:
        shutil.rmtree(folder, ignore_errors=True)
    if not good:
        sys.exit("soak: FAILED: a count that must be 0 is not, or a kill was not delivered")
    say("nothing mixed, nothing lost")


if __name__ == "__main__":
    main(sys.argv[1:])
