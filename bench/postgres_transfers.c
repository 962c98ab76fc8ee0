/* Transfers by PostgreSQL's two phases: `postgres_transfers HOST TIMES [FIRST COUNT]` makes so many over COUNT databases from gFIRST on (g1 to g4 if
 * nothing is said) of the server whose socket stands in the folder HOST. Each writes one row at home and one in the next database, prepares both, and
 * commits both. One client, one transfer after the other. Clients that run at once take databases of their own. */
#include <libpq-fe.h>
#include <stdio.h>
#include <stdlib.h>

#define MOST 64

static void must(PGconn *conn, int is_well) {
    if (!is_well) {
        fprintf(stderr, "%s", PQerrorMessage(conn));
        exit(1);
    }
}

static void run(PGconn *conn, const char *sql) {
    PGresult *result = PQexec(conn, sql);
    must(conn, PQresultStatus(result) == PGRES_COMMAND_OK);
    PQclear(result);
}

int main(int argc, char **argv) {
    if (argc < 3) return 2;
    int first = argc > 4 ? atoi(argv[3]) : 1, count = argc > 4 ? atoi(argv[4]) : 4;
    if (count < 1 || count > MOST) return 2;
    PGconn *conns[MOST];
    char text[512];
    for (int i = 0; i < count; i++) {
        snprintf(text, sizeof text, "host=%s dbname=g%d user=argus", argv[1], first + i);
        conns[i] = PQconnectdb(text);
        must(conns[i], PQstatus(conns[i]) == CONNECTION_OK);
        run(conns[i], "CREATE TABLE base(obj INTEGER PRIMARY KEY, val TEXT NOT NULL)");
        run(conns[i], "INSERT INTO base SELECT n, '{\"record\":{\"n\":0}}' FROM generate_series(1, 64) n");
    }
    for (long long top = 1; top <= atoll(argv[2]); top++) {
        PGconn *both[2] = {conns[top % count], conns[(top + 1) % count]};
        for (int i = 0; i < 2; i++) {
            snprintf(text, sizeof text, "BEGIN; UPDATE base SET val = '{\"record\":{\"n\":%lld}}' WHERE obj = %lld; PREPARE TRANSACTION 't%d.%lld.%d'",
                     i ? top : -top, top % 64 + 1, first, top, i);
            run(both[i], text);
        }
        for (int i = 0; i < 2; i++) {
            snprintf(text, sizeof text, "COMMIT PREPARED 't%d.%lld.%d'", first, top, i);
            run(both[i], text);
        }
    }
    for (int i = 0; i < count; i++) {
        run(conns[i], "DROP TABLE base");
        PQfinish(conns[i]);
    }
    return 0;
}
