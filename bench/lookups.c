/* Looks up rows of a SQLite database, each by its id, and prints how many there are and how many bytes their values have.
 *
 *     lookups DATABASE <KEYS
 *
 * A line of KEYS is a table and an id with a space between them. One statement for each table is prepared once, and serves all its keys, in
 * one transaction. */
#include <sqlite3.h>
#include <stdio.h>
#include <stdlib.h>
#include <string.h>

enum { MOST_TABLES = 16, MOST_BYTES = 256 };

typedef struct {
    char name[MOST_BYTES];
    sqlite3_stmt *by_id;
} table;

typedef struct {
    sqlite3 *database;
    table tables[MOST_TABLES];
    int count;
} tables;

static void require(sqlite3 *database, int code, int wanted)
{
    if (code != wanted) {
        fprintf(stderr, "lookups: %s\n", sqlite3_errmsg(database));
        exit(1);
    }
}

/* The statement of a table, which is prepared at its first key. */
static sqlite3_stmt *statement_of(tables *all, const char *name)
{
    char text[2 * MOST_BYTES];
    table *new;

    for (int i = 0; i < all->count; i++) {
        if (strcmp(all->tables[i].name, name) == 0) {
            return all->tables[i].by_id;
        }
    }
    if (all->count == MOST_TABLES) {
        fputs("lookups: there are too many tables\n", stderr);
        exit(1);
    }
    new = &all->tables[all->count++];
    snprintf(new->name, sizeof new->name, "%s", name);
    snprintf(text, sizeof text, "SELECT * FROM \"%s\" WHERE id = ?", name);
    require(all->database, sqlite3_prepare_v2(all->database, text, -1, &new->by_id, NULL), SQLITE_OK);
    return new->by_id;
}

/* How many bytes the values of the row of this id have. */
static long bytes_of(tables *all, const char *name, const char *id)
{
    sqlite3_stmt *statement = statement_of(all, name);
    long bytes = 0;

    require(all->database, sqlite3_bind_text(statement, 1, id, -1, SQLITE_TRANSIENT), SQLITE_OK);
    require(all->database, sqlite3_step(statement), SQLITE_ROW);
    for (int column = 0; column < sqlite3_column_count(statement); column++) {
        if (sqlite3_column_text(statement, column) != NULL) {
            bytes += sqlite3_column_bytes(statement, column);
        }
    }
    require(all->database, sqlite3_reset(statement), SQLITE_OK);
    return bytes;
}

int main(int count, char **words)
{
    char name[MOST_BYTES], id[MOST_BYTES];
    tables all = {0};
    long rows = 0, bytes = 0;

    if (count != 2) {
        fputs("lookups: lookups DATABASE\n", stderr);
        return 2;
    }
    require(all.database, sqlite3_open_v2(words[1], &all.database, SQLITE_OPEN_READONLY, NULL), SQLITE_OK);
    require(all.database, sqlite3_exec(all.database, "BEGIN", NULL, NULL, NULL), SQLITE_OK);
    while (scanf("%255s %255s", name, id) == 2) {
        bytes += bytes_of(&all, name, id);
        rows++;
    }
    for (int i = 0; i < all.count; i++) {
        sqlite3_finalize(all.tables[i].by_id);
    }
    sqlite3_close(all.database);
    printf("%ld rows, %ld bytes\n", rows, bytes);
    return 0;
}
