/* The pipeline of examples/two_nodes.net, exactly once, by transactions of a database in memory: one stage passes the items on, the other
   adds them up. Each batch of 64 items is a transaction, in which a stage's position and state move and what it puts is inserted.

   usage: plain_exactly_once INPUTS     (the line "i: 1 2 3 .." of a file; writes "o: .." as kahnrun does) */

#include <sqlite3.h>
#include <stdio.h>
#include <stdlib.h>

enum { BATCH = 64, PASSED_ON = 1, OUTPUT = 2 };

static sqlite3 *database;

static void check(int status, int wanted)
{
    if (status != wanted) {
        fprintf(stderr, "%s\n", sqlite3_errmsg(database));
        exit(1);
    }
}

static void execute(const char *words)
{
    check(sqlite3_exec(database, words, NULL, NULL, NULL), SQLITE_OK);
}

static sqlite3_stmt *prepared(const char *words)
{
    sqlite3_stmt *statement;
    check(sqlite3_prepare_v2(database, words, -1, &statement, NULL), SQLITE_OK);
    return statement;
}

static void step(sqlite3_stmt *statement, int wanted)
{
    check(sqlite3_step(statement), wanted);
}

static sqlite3_stmt *insert, *move, *stand, *read_from;

static void put(int channel, sqlite3_int64 position, sqlite3_int64 item)
{
    sqlite3_bind_int(insert, 1, channel);
    sqlite3_bind_int64(insert, 2, position);
    sqlite3_bind_int64(insert, 3, item);
    step(insert, SQLITE_DONE);
    sqlite3_reset(insert);
}

static void move_stage(int stage, sqlite3_int64 position, sqlite3_int64 state)
{
    sqlite3_bind_int64(move, 1, position);
    sqlite3_bind_int64(move, 2, state);
    sqlite3_bind_int(move, 3, stage);
    step(move, SQLITE_DONE);
    sqlite3_reset(move);
}

static void stage_at(int stage, sqlite3_int64 *position, sqlite3_int64 *state)
{
    sqlite3_bind_int(stand, 1, stage);
    step(stand, SQLITE_ROW);
    *position = sqlite3_column_int64(stand, 0);
    *state = sqlite3_column_int64(stand, 1);
    sqlite3_reset(stand);
}

/* Passes the next batch of inputs on; how many there were. */
static int pass_on(const sqlite3_int64 *inputs, sqlite3_int64 count)
{
    sqlite3_int64 position, state;
    int taken = 0;
    execute("BEGIN");
    stage_at(0, &position, &state);
    while (taken < BATCH && position < count) {
        put(PASSED_ON, position, inputs[position]);
        position++;
        taken++;
    }
    move_stage(0, position, state);
    execute("COMMIT");
    return taken;
}

/* Adds up the next batch of what was passed on; how many there were. */
static int add_up(void)
{
    sqlite3_int64 items[BATCH], position, state;
    int count = 0;
    execute("BEGIN");
    stage_at(1, &position, &state);
    sqlite3_bind_int(read_from, 1, PASSED_ON);
    sqlite3_bind_int64(read_from, 2, position);
    while (count < BATCH && sqlite3_step(read_from) == SQLITE_ROW)
        items[count++] = sqlite3_column_int64(read_from, 0);
    sqlite3_reset(read_from);
    for (int n = 0; n < count; n++) {
        state = (sqlite3_int64)((unsigned long long)state + (unsigned long long)items[n]);
        put(OUTPUT, position + n, state);
    }
    move_stage(1, position + count, state);
    execute("COMMIT");
    return count;
}

static sqlite3_int64 *read_inputs(const char *name, sqlite3_int64 *count)
{
    FILE *file = fopen(name, "r");
    sqlite3_int64 room = 1024, *items = malloc(room * sizeof *items);
    long long item;
    if (!file || !items || fscanf(file, " i:") != 0)
        exit(2);
    *count = 0;
    while (fscanf(file, "%lld", &item) == 1) {
        if (*count == room) {
            room *= 2;
            items = realloc(items, room * sizeof *items);
            if (!items)
                exit(1);
        }
        items[(*count)++] = item;
    }
    fclose(file);
    return items;
}

int main(int words, char **word)
{
    sqlite3_int64 count, *inputs = read_inputs(words > 1 ? word[1] : "", &count);
    check(sqlite3_open(":memory:", &database), SQLITE_OK);
    execute("CREATE TABLE items (channel INTEGER, position INTEGER, item INTEGER, PRIMARY KEY (channel, position)) WITHOUT ROWID");
    execute("CREATE TABLE stages (stage INTEGER PRIMARY KEY, position INTEGER, state INTEGER)");
    execute("INSERT INTO stages VALUES (0, 0, 0), (1, 0, 0)");
    insert = prepared("INSERT INTO items VALUES (?, ?, ?)");
    move = prepared("UPDATE stages SET position = ?, state = ? WHERE stage = ?");
    stand = prepared("SELECT position, state FROM stages WHERE stage = ?");
    read_from = prepared("SELECT item FROM items WHERE channel = ? AND position >= ? ORDER BY position");
    for (int busy = 1; busy;) {
        int passed = pass_on(inputs, count), added = add_up();
        busy = passed + added > 0;
    }
    sqlite3_bind_int(read_from, 1, OUTPUT);
    sqlite3_bind_int64(read_from, 2, 0);
    printf("o:");
    while (sqlite3_step(read_from) == SQLITE_ROW)
        printf(" %lld", (long long)sqlite3_column_int64(read_from, 0));
    printf("\ncomplete\n");
    return 0;
}
