"""The jobs of a fleet, in PostgreSQL or in SQLite: two tables, and the few statements that workers and auditors make.

A URL is postgresql://.. as libpq has them, or sqlite:FILE. A piece of work is one transaction: `take` opens it and locks
the job, `keep` or `set_aside` writes the job, `commit` ends it. A worker that is killed anywhere in between leaves the job
and its recording as they were before `take`. So is an audit: `take_plate`, `answer`, `commit`.
"""

from typing import NamedTuple

# BYTES is bytea in PostgreSQL and blob in SQLite.
TABLE = """
CREATE TABLE gulxinett_job (
    id integer PRIMARY KEY,
    -- waiting, done, or aside: refused, with a sentence in reason
    status text NOT NULL DEFAULT 'waiting',
    reason text NOT NULL DEFAULT '',
    -- the specimen: its photograph (Netpbm P6), and the choice as gulxinett_choose and three registers have it
    photograph BYTES NOT NULL,
    light integer NOT NULL,
    level integer NOT NULL,
    plain integer NOT NULL,
    exposure integer NOT NULL,
    a000 integer NOT NULL,
    a001 integer NOT NULL,
    a004 integer NOT NULL,
    -- the save before any work, and the save now
    first BYTES NOT NULL,
    save BYTES NOT NULL,
    -- the finished picture (Netpbm P5)
    plate BYTES,
    -- what the worker was answered: running cycles, counts of captures, bytes outside the picture area that differ from first
    cycles bigint NOT NULL DEFAULT 0,
    started integer NOT NULL DEFAULT 0,
    ended integer NOT NULL DEFAULT 0,
    outside integer NOT NULL DEFAULT 0,
    -- saves committed, and a letter for the kind of worker of each
    pieces integer NOT NULL DEFAULT 0,
    hands text NOT NULL DEFAULT '',
    -- what the audit answers of the recording, once the plate is there: its events, a line each; see audit.py
    audit text
)
"""
# What each piece did, as the lines of a bus script: the pieces of a job in order are its recording. A table of its own, so
# that a piece writes its own lines alone and not those before it again.
RECORDING = """
CREATE TABLE gulxinett_recording (
    job integer NOT NULL REFERENCES gulxinett_job (id),
    piece integer NOT NULL,
    lines text NOT NULL,
    PRIMARY KEY (job, piece)
)
"""
INDEX = "CREATE INDEX gulxinett_waiting ON gulxinett_job (pieces, id) WHERE status = 'waiting'"
UNAUDITED = "CREATE INDEX gulxinett_unaudited ON gulxinett_job (id) WHERE status = 'done' AND audit IS NULL"

SPECIMEN = "photograph, light, level, plain, exposure, a000, a001, a004"
TAKE = "SELECT id, pieces, first, save, %s FROM gulxinett_job WHERE status = 'waiting' ORDER BY pieces, id LIMIT 1" % SPECIMEN
OTHER = (
    "SELECT %s FROM gulxinett_job WHERE id <> ? AND id = 1 + (? %% (SELECT max(id) FROM gulxinett_job))" % SPECIMEN
)
STORE = "SELECT save FROM gulxinett_job WHERE id = 1 + (? % (SELECT max(id) FROM gulxinett_job))"
KEEP = (
    "UPDATE gulxinett_job SET save = ?, cycles = cycles + ?, started = ?, ended = ?,"
    " outside = ?, pieces = pieces + 1, hands = hands || ?, plate = ?, status = ? WHERE id = ?"
)
RECORD = "INSERT INTO gulxinett_recording (job, piece, lines) VALUES (?, ?, ?)"
ASIDE = "UPDATE gulxinett_job SET status = 'aside', reason = ? WHERE id = ?"
WAITING = "SELECT count(*) FROM gulxinett_job WHERE status = 'waiting'"
TAKE_PLATE = "SELECT id, first FROM gulxinett_job WHERE status = 'done' AND audit IS NULL ORDER BY id LIMIT 1"
RECORDED = "SELECT lines FROM gulxinett_recording WHERE job = ? ORDER BY piece"
ANSWER = "UPDATE gulxinett_job SET audit = ? WHERE id = ?"
UNANSWERED = "SELECT count(*) FROM gulxinett_job WHERE status = 'done' AND audit IS NULL"


class Specimen(NamedTuple):
    """What is photographed, and how."""

    photograph: bytes
    light: int
    level: int
    plain: int
    exposure: int
    a000: int
    a001: int
    a004: int


class Job(NamedTuple):
    """A job that this worker has taken."""

    id: int
    pieces: int
    first: bytes
    save: bytes
    specimen: Specimen


class Sqlite:
    """One file. A transaction that writes locks all of it, so workers take turns."""

    def __init__(self, path):
        import sqlite3

        # a kill of a process loses nothing that the system was given, so the disk need not be waited for here
        self.connection = sqlite3.connect(path, timeout=120, isolation_level=None)
        self.run("PRAGMA journal_mode = WAL")
        self.run("PRAGMA synchronous = OFF")

    def run(self, statement, *words):
        """Makes one statement; the rows it gives."""
        return self.connection.execute(statement, words).fetchall()

    def look(self, statement, *words):
        """The rows of a statement outside a piece of work."""
        return self.run(statement, *words)

    def create(self):
        for statement in TABLE, RECORDING, INDEX, UNAUDITED:
            self.run(statement.replace("BYTES", "blob"))

    def begin(self):
        self.run("BEGIN IMMEDIATE")

    def commit(self):
        self.run("COMMIT")

    def rollback(self):
        self.run("ROLLBACK")

    lock = ""
    # how many bytes a column's value takes
    taken_by = "length"


class Postgres:
    """A server. Each worker locks its own job, and passes by the jobs that others have locked."""

    def __init__(self, url):
        import psycopg2

        self.connection = psycopg2.connect(url)

    def run(self, statement, *words):
        """Makes one statement, which opens a transaction where none is open; the rows it gives."""
        with self.connection.cursor() as cursor:
            cursor.execute(statement.replace("%", "%%").replace("?", "%s"), words)
            if cursor.description is None:
                return []
            return [tuple(bytes(word) if isinstance(word, memoryview) else word for word in row) for row in cursor]

    def look(self, statement, *words):
        """The rows of a statement outside a piece of work: no transaction is left open."""
        rows = self.run(statement, *words)
        self.rollback()
        return rows

    def create(self):
        for statement in TABLE, RECORDING, INDEX, UNAUDITED:
            self.run(statement.replace("BYTES", "bytea"))
        self.commit()

    def begin(self):
        pass

    def commit(self):
        self.connection.commit()

    def rollback(self):
        self.connection.rollback()

    lock = " FOR UPDATE SKIP LOCKED"
    # how many bytes a column's value takes, as the server has compressed it
    taken_by = "pg_column_size"


def connect(url):
    """The database of a URL."""
    if url.startswith("sqlite:"):
        return Sqlite(url[len("sqlite:") :])
    return Postgres(url)


def take(database):
    """Opens a transaction and takes a job that no other worker has; None if there is none, and then no transaction is open."""
    row = locked(database, TAKE)
    if row is None:
        return None
    id, pieces, first, save, *specimen = row
    return Job(id, pieces, first, save, Specimen(*specimen))


def locked(database, statement):
    """Opens a transaction and locks the row of a statement that nobody else has; None if there is none."""
    database.begin()
    rows = database.run(statement + database.lock)
    if rows:
        return rows[0]
    database.rollback()
    return None


def other_specimen(database, job):
    """The specimen of another job, as a retry that mistakes its job lends it; None where there is no other."""
    rows = database.run(OTHER, job.id, job.id + job.pieces)
    return Specimen(*rows[0]) if rows else None


def keep(database, job, save, recording, cycles, started, ended, outside, hand, plate):
    """Writes what a piece of work left: the save, and all that is said of it, at once."""
    status = "waiting" if plate is None else "done"
    database.run(KEEP, save, cycles, started, ended, outside, hand, plate, status, job.id)
    database.run(RECORD, job.id, job.pieces + 1, recording)


def set_aside(database, job, reason):
    """Leaves a job that can't be worked on as it is, with a sentence why."""
    database.run(ASIDE, reason, job.id)


def waiting(database):
    """How many jobs are not done and not set aside."""
    return database.look(WAITING)[0][0]


def recorded(database, id):
    """The pieces of a job's recording, in order."""
    return [lines for (lines,) in database.run(RECORDED, id)]


def most(database):
    """The highest number of a job."""
    return database.run("SELECT max(id) FROM gulxinett_job")[0][0]


def take_plate(database):
    """Opens a transaction and takes a plate that nobody has audited: its job's number and first save; None if there is none."""
    return locked(database, TAKE_PLATE)


def answer(database, id, events):
    """Writes what the audit says of a job's recording."""
    database.run(ANSWER, events, id)


def unanswered(database):
    """How many plates have no answers yet."""
    return database.look(UNANSWERED)[0][0]
