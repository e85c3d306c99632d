/* A Print-Job's three writes by the stock SQLite library, for the programs beside this file. */
#include <sqlite3.h>
#include <stdio.h>
#include <stdlib.h>

static sqlite3 *db;
static sqlite3_stmt *begin, *commit, *find_account, *set_next_job, *add_job, *add_document;

static void check(int is_well, const char *what)
{
    if (!is_well) {
        fprintf(stderr, "%s: %s\n", what, db ? sqlite3_errmsg(db) : "no memory");
        exit(1);
    }
}

static sqlite3_stmt *prepared(const char *text)
{
    sqlite3_stmt *statement;
    check(sqlite3_prepare_v3(db, text, -1, SQLITE_PREPARE_PERSISTENT, &statement, NULL) == SQLITE_OK, text);
    return statement;
}

static void run(sqlite3_stmt *statement)
{
    check(sqlite3_step(statement) == SQLITE_DONE, sqlite3_sql(statement));
    sqlite3_reset(statement);
}

static void text(sqlite3_stmt *statement, int at, const char *value)
{
    check(sqlite3_bind_text(statement, at, value, -1, SQLITE_STATIC) == SQLITE_OK, "a text");
}

static void blob(sqlite3_stmt *statement, int at, const char *value, size_t length)
{
    check(sqlite3_bind_blob(statement, at, value, (int)length, SQLITE_STATIC) == SQLITE_OK, "bytes");
}

static void number(sqlite3_stmt *statement, int at, sqlite3_int64 value)
{
    check(sqlite3_bind_int64(statement, at, value) == SQLITE_OK, "a number");
}

/* Opens a file with a write-ahead log and synchronous FULL, as the project has, and prepares the four texts, each once. */
static void open_file(const char *path, char **texts)
{
    check(sqlite3_open_v2(path, &db, SQLITE_OPEN_READWRITE, NULL) == SQLITE_OK, path);
    check(sqlite3_exec(db, "PRAGMA journal_mode = WAL; PRAGMA synchronous = FULL; PRAGMA foreign_keys = ON", NULL, NULL,
                       NULL) == SQLITE_OK, "the settings");
    begin = prepared("BEGIN");
    commit = prepared("COMMIT");
    find_account = prepared(texts[0]);
    set_next_job = prepared(texts[1]);
    add_job = prepared(texts[2]);
    add_document = prepared(texts[3]);
}

/* The number of the account's next job. */
static sqlite3_int64 next_job(const char *account)
{
    text(find_account, 1, account);
    check(sqlite3_step(find_account) == SQLITE_ROW, account);
    sqlite3_int64 next = sqlite3_column_int64(find_account, 1);
    sqlite3_reset(find_account);
    return next;
}

/* Writes the three rows of a Print-Job without attributes, in the transaction that is open. */
static void write_rows(const char *account, sqlite3_int64 job, const char *document, size_t length)
{
    /* From the state to the rate, and from the moment of making to that of the end. */
    static const sqlite3_int64 first[] = {4, 0, 0, 1, 0, 0, 0, 1, 1}, last[] = {1788220800, -1, -1};
    text(set_next_job, 1, account);
    number(set_next_job, 2, job + 1);
    run(set_next_job);
    text(add_job, 1, account);
    number(add_job, 2, job);
    blob(add_job, 3, "untitled", 8);
    blob(add_job, 4, "", 0);
    for (int i = 0; i < 9; i++)
        number(add_job, 5 + i, first[i]);
    text(add_job, 14, "");
    for (int i = 0; i < 3; i++)
        number(add_job, 15 + i, last[i]);
    run(add_job);
    text(add_document, 1, account);
    number(add_document, 2, job);
    number(add_document, 3, 1);
    text(add_document, 4, "application/octet-stream");
    blob(add_document, 5, document, length);
    run(add_document);
}
