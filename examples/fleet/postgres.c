/* The jobs of a fleet in PostgreSQL, over libpq: each worker locks its own job and passes by those that others have locked. */
#include "database.h"

#include <libpq-fe.h>
#include <stdio.h>
#include <stdlib.h>
#include <string.h>

#define P(n) "$" #n

/* The most words that a statement is given. */
enum { WORDS = 8 };

static PGconn *server;
/* The rows that the job and the other specimen lie in. */
static PGresult *taken, *lent;

/* The words of a statement, as libpq takes them. */
struct words {
    const char *values[WORDS];
    int lengths[WORDS], binary[WORDS], count;
    char digits[WORDS][12];
};

static void number(struct words *words, uint32_t value)
{
    snprintf(words->digits[words->count], sizeof words->digits[0], "%lu", (unsigned long)value);
    words->values[words->count] = words->digits[words->count];
    words->binary[words->count++] = 0;
}

static void blob(struct words *words, struct bytes bytes)
{
    words->values[words->count] = (const char *)bytes.at;
    words->lengths[words->count] = (int)bytes.length;
    words->binary[words->count++] = 1;
}

static void text(struct words *words, const char *value)
{
    struct bytes bytes = {(const uint8_t *)value, strlen(value)};
    blob(words, bytes);
}

/* Makes a statement; its rows are binary. */
static PGresult *made(const char *statement, const struct words *words)
{
    PGresult *result = PQexecParams(server, statement, words ? words->count : 0, NULL, words ? words->values : NULL,
                                    words ? words->lengths : NULL, words ? words->binary : NULL, 1);
    ExecStatusType status = PQresultStatus(result);
    if (status != PGRES_COMMAND_OK && status != PGRES_TUPLES_OK)
        fail("postgres", PQerrorMessage(server));
    return result;
}

static void plainly(const char *statement, const struct words *words)
{
    PQclear(made(statement, words));
}

static struct bytes bytes_of(const PGresult *rows, int column)
{
    struct bytes bytes = {(const uint8_t *)PQgetvalue(rows, 0, column), (size_t)PQgetlength(rows, 0, column)};
    return bytes;
}

/* A number as the server sends it: 4 or 8 bytes, highest first. */
static uint32_t number_of(const PGresult *rows, int column)
{
    struct bytes bytes = bytes_of(rows, column);
    uint32_t value = 0;
    for (size_t k = 0; k < bytes.length; k++)
        value = value << 8 | bytes.at[k];
    return value;
}

static void specimen_of(const PGresult *rows, int column, struct specimen *specimen)
{
    uint32_t *numbers[] = {&specimen->light, &specimen->level, &specimen->plain, &specimen->exposure,
                           &specimen->a000,  &specimen->a001,  &specimen->a004};
    specimen->photograph = bytes_of(rows, column);
    for (int k = 0; k < 7; k++)
        *numbers[k] = number_of(rows, column + 1 + k);
}

void database_open(const char *url)
{
    server = PQconnectdb(url);
    if (PQstatus(server) != CONNECTION_OK)
        fail("postgres", PQerrorMessage(server));
}

int database_take(struct job *job)
{
    plainly("BEGIN", NULL);
    PQclear(taken);
    taken = made(TAKE " FOR UPDATE SKIP LOCKED", NULL);
    if (PQntuples(taken) == 0) {
        plainly("ROLLBACK", NULL);
        return 0;
    }
    job->id = number_of(taken, 0);
    job->pieces = number_of(taken, 1);
    job->first = bytes_of(taken, 2);
    job->save = bytes_of(taken, 3);
    specimen_of(taken, 4, &job->specimen);
    return 1;
}

int database_other(const struct job *job, struct specimen *other)
{
    struct words words = {.count = 0};
    number(&words, job->id);
    number(&words, job->id + job->pieces);
    PQclear(lent);
    lent = made(OTHER, &words);
    if (PQntuples(lent) == 0)
        return 0;
    specimen_of(lent, 0, other);
    return 1;
}

void database_keep(const struct job *job, const struct piece *piece)
{
    struct words words = {.count = 0}, lines = {.count = 0};
    blob(&words, piece->save);
    number(&words, piece->cycles);
    number(&words, piece->started);
    number(&words, piece->ended);
    number(&words, piece->outside);
    blob(&words, piece->plate);
    text(&words, piece->plate.at ? "done" : "waiting");
    number(&words, job->id);
    plainly(KEEP, &words);
    number(&lines, job->id);
    number(&lines, job->pieces + 1);
    blob(&lines, piece->recording);
    plainly(RECORD, &lines);
}

void database_aside(const struct job *job, const char *reason)
{
    struct words words = {.count = 0};
    text(&words, reason);
    number(&words, job->id);
    plainly(ASIDE, &words);
}

void database_commit(void)
{
    plainly("COMMIT", NULL);
}

uint32_t database_waiting(void)
{
    PGresult *rows = made(WAITING, NULL);
    uint32_t count = number_of(rows, 0);
    PQclear(rows);
    return count;
}
