/* The jobs of a fleet in SQLite: one file. A transaction that writes locks all of it, so workers take turns. */
#include "database.h"

#include <sqlite3.h>
#include <string.h>

#define P(n) "?"

static sqlite3 *file;
static sqlite3_stmt *take, *other_one, *keep, *lines, *aside, *waiting;

/* Ends the worker unless SQLite answered one of two numbers. */
static int ensure(int answer, int wanted, int also)
{
    if (answer != wanted && answer != also)
        fail("sqlite", sqlite3_errmsg(file));
    return answer;
}

static void plainly(const char *statement)
{
    ensure(sqlite3_exec(file, statement, NULL, NULL, NULL), SQLITE_OK, SQLITE_OK);
}

static sqlite3_stmt *prepared(const char *text)
{
    sqlite3_stmt *statement;
    ensure(sqlite3_prepare_v2(file, text, -1, &statement, NULL), SQLITE_OK, SQLITE_OK);
    return statement;
}

static void number(sqlite3_stmt *statement, int place, uint32_t value)
{
    ensure(sqlite3_bind_int64(statement, place, value), SQLITE_OK, SQLITE_OK);
}

static void blob(sqlite3_stmt *statement, int place, struct bytes bytes)
{
    int answer = bytes.at ? sqlite3_bind_blob64(statement, place, bytes.at, bytes.length, SQLITE_STATIC)
                          : sqlite3_bind_null(statement, place);
    ensure(answer, SQLITE_OK, SQLITE_OK);
}

static void text(sqlite3_stmt *statement, int place, const char *words, size_t length)
{
    ensure(sqlite3_bind_text(statement, place, words, (int)length, SQLITE_STATIC), SQLITE_OK, SQLITE_OK);
}

/* Makes a statement that gives no row. */
static void done(sqlite3_stmt *statement)
{
    ensure(sqlite3_step(statement), SQLITE_DONE, SQLITE_DONE);
    ensure(sqlite3_reset(statement), SQLITE_OK, SQLITE_OK);
}

static struct bytes bytes_of(sqlite3_stmt *row, int column)
{
    struct bytes bytes = {sqlite3_column_blob(row, column), (size_t)sqlite3_column_bytes(row, column)};
    return bytes;
}

static uint32_t number_of(sqlite3_stmt *row, int column)
{
    return (uint32_t)sqlite3_column_int64(row, column);
}

static void specimen_of(sqlite3_stmt *row, int column, struct specimen *specimen)
{
    uint32_t *numbers[] = {&specimen->light, &specimen->level, &specimen->plain, &specimen->exposure,
                           &specimen->a000,  &specimen->a001,  &specimen->a004};
    specimen->photograph = bytes_of(row, column);
    for (int k = 0; k < 7; k++)
        *numbers[k] = number_of(row, column + 1 + k);
}

void database_open(const char *url)
{
    if (strncmp(url, "sqlite:", 7) != 0)
        fail("sqlite", "the URL is not sqlite:FILE");
    ensure(sqlite3_open(url + 7, &file), SQLITE_OK, SQLITE_OK);
    ensure(sqlite3_busy_timeout(file, 120000), SQLITE_OK, SQLITE_OK);
    plainly("PRAGMA synchronous = OFF");
    take = prepared(TAKE);
    other_one = prepared(OTHER);
    keep = prepared(KEEP);
    lines = prepared(RECORD);
    aside = prepared(ASIDE);
    waiting = prepared(WAITING);
}

int database_take(struct job *job)
{
    plainly("BEGIN IMMEDIATE");
    if (ensure(sqlite3_step(take), SQLITE_ROW, SQLITE_DONE) == SQLITE_DONE) {
        sqlite3_reset(take);
        plainly("ROLLBACK");
        return 0;
    }
    job->id = number_of(take, 0);
    job->pieces = number_of(take, 1);
    job->first = bytes_of(take, 2);
    job->save = bytes_of(take, 3);
    specimen_of(take, 4, &job->specimen);
    return 1;
}

int database_other(const struct job *job, struct specimen *other)
{
    number(other_one, 1, job->id);
    number(other_one, 2, job->id + job->pieces);
    if (ensure(sqlite3_step(other_one), SQLITE_ROW, SQLITE_DONE) == SQLITE_DONE)
        return 0;
    specimen_of(other_one, 0, other);
    return 1;
}

void database_keep(const struct job *job, const struct piece *piece)
{
    const char *status = piece->plate.at ? "done" : "waiting";
    blob(keep, 1, piece->save);
    number(keep, 2, piece->cycles);
    number(keep, 3, piece->started);
    number(keep, 4, piece->ended);
    number(keep, 5, piece->outside);
    blob(keep, 6, piece->plate);
    text(keep, 7, status, strlen(status));
    number(keep, 8, job->id);
    done(keep);
    number(lines, 1, job->id);
    number(lines, 2, job->pieces + 1);
    text(lines, 3, (const char *)piece->recording.at, piece->recording.length);
    done(lines);
}

void database_aside(const struct job *job, const char *reason)
{
    text(aside, 1, reason, strlen(reason));
    number(aside, 2, job->id);
    done(aside);
}

void database_commit(void)
{
    sqlite3_reset(take);
    sqlite3_reset(other_one);
    plainly("COMMIT");
}

uint32_t database_waiting(void)
{
    ensure(sqlite3_step(waiting), SQLITE_ROW, SQLITE_ROW);
    uint32_t count = number_of(waiting, 0);
    sqlite3_reset(waiting);
    return count;
}
