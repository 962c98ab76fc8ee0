/* The statements of stores' calls, made by SQLite's own library: each call one transaction, sixteen values a statement and what is left over one by one.
 * A statement is prepared once and kept. `same_statements transfers FOLDER TIMES` makes those of so many transfers over four stores, as the steps of the
 * workload `transfers` do: a prepare at each of two guardians, the decision at the first, and an installation at each. */
#include <sqlite3.h>
#include <stdio.h>
#include <stdlib.h>
#include <string.h>

/* How many values one statement writes, and the statements that write them. */
#define RUN 16

static const char *value_run =
    "INSERT INTO prepared_val VALUES (?1, ?2, ?3), (?1, ?4, ?5), (?1, ?6, ?7), (?1, ?8, ?9), (?1, ?10, ?11), (?1, ?12, ?13), "
    "(?1, ?14, ?15), (?1, ?16, ?17), (?1, ?18, ?19), (?1, ?20, ?21), (?1, ?22, ?23), (?1, ?24, ?25), (?1, ?26, ?27), "
    "(?1, ?28, ?29), (?1, ?30, ?31), (?1, ?32, ?33)";

static const char *base_run =
    "INSERT OR REPLACE INTO base VALUES (?1, ?2), (?3, ?4), (?5, ?6), (?7, ?8), (?9, ?10), (?11, ?12), (?13, ?14), "
    "(?15, ?16), (?17, ?18), (?19, ?20), (?21, ?22), (?23, ?24), (?25, ?26), (?27, ?28), (?29, ?30), (?31, ?32)";

/* The stores, each with the statements that are kept of it, and the one that is called. */
#define STORES 4

static struct store {
    sqlite3 *db;
    struct { const char *sql; sqlite3_stmt *statement; } all[16];
} stores[STORES], *here = stores;

static void must(int is_well) {
    if (!is_well) {
        fprintf(stderr, "%s\n", sqlite3_errmsg(here->db));
        exit(1);
    }
}

/* The statement of this text. */
static sqlite3_stmt *kept(const char *sql) {
    int i = 0;
    while (here->all[i].sql && strcmp(here->all[i].sql, sql)) i++;
    if (!here->all[i].sql) {
        must(sqlite3_prepare_v2(here->db, sql, -1, &here->all[i].statement, NULL) == SQLITE_OK);
        here->all[i].sql = sql;
    }
    return here->all[i].statement;
}

static void step(sqlite3_stmt *statement) {
    must(sqlite3_step(statement) == SQLITE_DONE);
    must(sqlite3_reset(statement) == SQLITE_OK);
}

/* Runs a statement with these numbers. */
static void run(const char *sql, int numbers, const long long *number) {
    sqlite3_stmt *statement = kept(sql);
    for (int i = 0; i < numbers; i++) must(sqlite3_bind_int64(statement, i + 1, number[i]) == SQLITE_OK);
    step(statement);
}

/* Runs a statement that writes this record for so many objects from this one on: of this top action, if it is not 0. */
static void put(const char *sql, long long top, long long object, int count, const char *record) {
    sqlite3_stmt *statement = kept(sql);
    int at = 1;
    if (top) must(sqlite3_bind_int64(statement, at++, top) == SQLITE_OK);
    for (int i = 0; i < count; i++) {
        must(sqlite3_bind_int64(statement, at++, object + i) == SQLITE_OK);
        must(sqlite3_bind_text(statement, at++, record, -1, SQLITE_STATIC) == SQLITE_OK);
    }
    step(statement);
}

/* The same for so many objects from the first on, sixteen at a time. */
static void put_all(const char *many, const char *one, long long top, long long first, long long objects, const char *record) {
    long long object = first, end = first + objects;
    for (; object + RUN <= end; object += RUN) put(many, top, object, RUN, record);
    for (; object < end; object++) put(one, top, object, 1, record);
}

static void plainly(const char *sql) { must(sqlite3_exec(here->db, sql, NULL, NULL, NULL) == SQLITE_OK); }

static void prepare(long long top, long long home, long long first, long long objects, const char *record) {
    plainly("BEGIN");
    run("DELETE FROM prepared WHERE top = ?1", 1, (long long[]){top});
    run("INSERT INTO prepared VALUES (?1, ?2)", 2, (long long[]){top, home});
    put_all(value_run, "INSERT INTO prepared_val VALUES (?1, ?2, ?3)", top, first, objects, record);
    run("INSERT OR REPLACE INTO meta(rowid, k, v) VALUES (3, 'next_top', ?1)", 1, (long long[]){top + 1});
    plainly("COMMIT");
}

static void decide(long long top) { run("INSERT OR REPLACE INTO decided VALUES (?1)", 1, (long long[]){top}); }

static void install(long long top, long long first, long long objects, const char *record) {
    plainly("BEGIN");
    run("DELETE FROM prepared WHERE top = ?1", 1, (long long[]){top});
    put_all(base_run, "INSERT OR REPLACE INTO base VALUES (?1, ?2)", 0, first, objects, record);
    plainly("COMMIT");
}

static void begin_store(const char *path) {
    must(sqlite3_open(path, &here->db) == SQLITE_OK);
    sqlite3_exec(here->db, "PRAGMA journal_mode = WAL", NULL, NULL, NULL);
    plainly("PRAGMA synchronous = FULL; PRAGMA foreign_keys = ON");
    plainly("BEGIN;"
            "CREATE TABLE meta(k TEXT PRIMARY KEY, v INTEGER NOT NULL);"
            "CREATE TABLE base(obj INTEGER PRIMARY KEY, val TEXT NOT NULL);"
            "CREATE TABLE prepared(top INTEGER PRIMARY KEY, home INTEGER NOT NULL);"
            "CREATE TABLE prepared_val(top INTEGER NOT NULL REFERENCES prepared(top) ON DELETE CASCADE, obj INTEGER NOT NULL,"
            " val TEXT NOT NULL, PRIMARY KEY(top, obj));"
            "CREATE TABLE decided(top INTEGER PRIMARY KEY);"
            "CREATE TABLE prepared_delta(top INTEGER NOT NULL REFERENCES prepared(top) ON DELETE CASCADE, obj INTEGER NOT NULL,"
            " add_by INTEGER NOT NULL, PRIMARY KEY(top, obj));"
            "INSERT INTO meta VALUES ('version', 2), ('count', 0), ('next_top', 1);"
            "COMMIT");
}

static void end_store(void) {
    for (int i = 0; here->all[i].sql; i++) sqlite3_finalize(here->all[i].statement);
    must(sqlite3_close(here->db) == SQLITE_OK);
}

static void write_record(char *record, size_t room, long long number) { snprintf(record, room, "{\"record\":{\"n\":%lld}}", number); }

/* Transfers between an object at home and one at the next guardian. */
static void transfers(const char *folder, long long times) {
    char path[4096], records[2][64];
    for (int i = 0; i < STORES; i++) {
        here = &stores[i];
        snprintf(path, sizeof path, "%s/g%d.db", folder, i + 1);
        begin_store(path);
    }
    for (long long top = 1; top <= times; top++) {
        struct store *both[2] = {&stores[top % STORES], &stores[(top + 1) % STORES]};
        long long home = top % STORES + 1, object = top % 64 + 1;
        write_record(records[0], sizeof records[0], -top);
        write_record(records[1], sizeof records[1], top);
        for (int i = 0; i < 2; i++) here = both[i], prepare(top, home, object, 1, records[i]);
        here = both[0], decide(top);
        for (int i = 0; i < 2; i++) here = both[i], install(top, object, 1, records[i]);
    }
    for (int i = 0; i < STORES; i++) here = &stores[i], end_store();
}

int main(int argc, char **argv) {
    if (argc < 4 || strcmp(argv[1], "transfers")) return 2;
    transfers(argv[2], atoll(argv[3]));
    return 0;
}
