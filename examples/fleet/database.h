/* The jobs of a fleet as the worker in C sees them; database.py has the table. sqlite.c and postgres.c each do this for one
 * database, and a worker is linked with one of them. What can't be done ends the worker with a sentence. */
#ifndef DATABASE_H
#define DATABASE_H

#include <stdint.h>
#include <stddef.h>

/* Bytes that the database holds until the next statement of the same kind. */
struct bytes {
    const uint8_t *at;
    size_t length;
};

/* What is photographed, and how. */
struct specimen {
    struct bytes photograph;
    uint32_t light, level, plain, exposure, a000, a001, a004;
};

/* A job that this worker has taken. */
struct job {
    uint32_t id, pieces;
    struct bytes first, save;
    struct specimen specimen;
};

/* What a piece of work left. */
struct piece {
    struct bytes save, recording, plate; /* no plate: at is NULL */
    uint32_t cycles, started, ended, outside;
};

/* Ends the worker with a reason. */
_Noreturn void fail(const char *what, const char *reason);

/* Opens the database of a URL. */
void database_open(const char *url);

/* Opens a transaction and takes a job that no other worker has; 0 if there is none, and then no transaction is open. */
int database_take(struct job *job);

/* The specimen of another job, as a retry that mistakes its job lends it; 0 if there is no other. */
int database_other(const struct job *job, struct specimen *other);

/* Writes what a piece of work left: the save, and all that is said of it, at once. */
void database_keep(const struct job *job, const struct piece *piece);

/* Leaves a job that can't be worked on as it is, with a sentence why. */
void database_aside(const struct job *job, const char *reason);

/* Ends the transaction. */
void database_commit(void);

/* How many jobs are not done and not set aside. */
uint32_t database_waiting(void);

/* The statements, with P(n) for the nth word. */
#define SPECIMEN "photograph, light, level, plain, exposure, a000, a001, a004"
#define TAKE                                                                                                           \
    "SELECT id, pieces, first, save, " SPECIMEN                                                                        \
    " FROM gulxinett_job WHERE status = 'waiting' ORDER BY pieces, id LIMIT 1"
#define OTHER                                                                                                          \
    "SELECT " SPECIMEN " FROM gulxinett_job WHERE id <> " P(1)                                                         \
    " AND id = 1 + (" P(2) " % (SELECT max(id) FROM gulxinett_job))"
#define KEEP                                                                                                           \
    "UPDATE gulxinett_job SET save = " P(1) ", cycles = cycles + " P(2) ", started = " P(3) ", ended = " P(4)          \
    ", outside = " P(5) ", pieces = pieces + 1, hands = hands || 'c', plate = " P(6) ", status = " P(7) " WHERE id = " P(8)
#define RECORD "INSERT INTO gulxinett_recording (job, piece, lines) VALUES (" P(1) ", " P(2) ", " P(3) ")"
#define ASIDE "UPDATE gulxinett_job SET status = 'aside', reason = " P(1) " WHERE id = " P(2)
#define WAITING "SELECT count(*) FROM gulxinett_job WHERE status = 'waiting'"

#endif
