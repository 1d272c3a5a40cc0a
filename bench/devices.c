/* The rows of bench_devices in the C library sqlite3, for a comparison in one run: `devices PART COUNT MORE`
   works in the current folder and prints a checksum. Schema, statements, log and syncs are those of the program. */

#include <sqlite3.h>
#include <stdint.h>
#include <stdio.h>
#include <stdlib.h>
#include <string.h>

#define MOST_PLACE 64

static sqlite3 *base;

static void check(int got, int wanted) {
    if (got != wanted) {
        fprintf(stderr, "devices: %s\n", sqlite3_errmsg(base));
        exit(1);
    }
}

static void run(const char *text) {
    check(sqlite3_exec(base, text, NULL, NULL, NULL), SQLITE_OK);
}

static sqlite3_stmt *prepared(const char *text) {
    sqlite3_stmt *statement;
    check(sqlite3_prepare_v2(base, text, -1, &statement, NULL), SQLITE_OK);
    return statement;
}

/* A log that is synced at each commit, and a file that is held, as the program's is. */
static void open_base(void) {
    check(sqlite3_open("agg-rows.db", &base), SQLITE_OK);
    run("PRAGMA locking_mode=EXCLUSIVE; PRAGMA journal_mode=WAL; PRAGMA synchronous=FULL");
    run("CREATE TABLE IF NOT EXISTS entries"
        " (id BLOB PRIMARY KEY NOT NULL, killed INTEGER NOT NULL, act INTEGER NOT NULL, value BLOB NOT NULL) STRICT;"
        "CREATE TABLE IF NOT EXISTS floors (one INTEGER PRIMARY KEY, step INTEGER NOT NULL) STRICT");
}

static void close_base(void) {
    check(sqlite3_close(base), SQLITE_OK);
}

static size_t put_number(unsigned char *bytes, uint64_t number) {
    for (int i = 0; i < 8; i++) {
        bytes[i] = (unsigned char)(number >> (56 - 8 * i));
    }
    return 8;
}

/* The bytes of the id with a number's key: a byte 0 of the key as 0, 255, and 0, 0 behind its last. */
static size_t put_place(unsigned char *place, uint64_t number, uint64_t tx, uint64_t born) {
    unsigned char key[20];
    size_t length = 0;
    memset(key, 7, sizeof key);
    put_number(key, number * UINT64_C(0x9e3779b97f4a7c15));
    place[length++] = 0;
    for (size_t i = 0; i < sizeof key; i++) {
        place[length++] = key[i];
        if (key[i] == 0) {
            place[length++] = 255;
        }
    }
    place[length++] = 0;
    place[length++] = 0;
    length += put_number(place + length, tx);
    return length + put_number(place + length, born);
}

/* The transaction number in a place, which stands before its last eight bytes. */
static uint64_t tx_of(const unsigned char *place, size_t length) {
    uint64_t tx = 0;
    for (size_t i = length - 16; i < length - 8; i++) {
        tx = tx << 8 | place[i];
    }
    return tx;
}

static uint64_t applied(uint64_t count, uint64_t size) {
    sqlite3_stmt *insert = prepared("INSERT INTO entries (id, killed, act, value) VALUES (?1, ?2, ?3, ?4)");
    unsigned char place[MOST_PLACE], value[32];
    memset(value, 7, sizeof value);
    for (uint64_t number = 0; number < count; number++) {
        if (number % size == 0) {
            run("BEGIN");
        }
        size_t length = put_place(place, number, number, number / size + 1);
        put_number(value, number);
        sqlite3_bind_blob(insert, 1, place, (int)length, SQLITE_STATIC);
        sqlite3_bind_int64(insert, 2, 0);
        sqlite3_bind_int64(insert, 3, 0);
        sqlite3_bind_blob(insert, 4, value, sizeof value, SQLITE_STATIC);
        check(sqlite3_step(insert), SQLITE_DONE);
        sqlite3_reset(insert);
        if (number % size == size - 1 || number == count - 1) {
            run("COMMIT");
        }
    }
    sqlite3_finalize(insert);
    return count;
}

/* A look copies the row that it finds, as the program's does. */
static uint64_t tx_found(sqlite3_stmt *look) {
    size_t length = (size_t)sqlite3_column_bytes(look, 0);
    size_t value_length = (size_t)sqlite3_column_bytes(look, 3);
    unsigned char *row = malloc(length + value_length + 1);
    memcpy(row, sqlite3_column_blob(look, 0), length);
    memcpy(row + length, sqlite3_column_blob(look, 3), value_length);
    uint64_t tx = tx_of(row, length) + (uint64_t)sqlite3_column_int64(look, 1) + (uint64_t)sqlite3_column_int64(look, 2);
    free(row);
    return tx;
}

static uint64_t looked(uint64_t count, uint64_t looks) {
    sqlite3_stmt *look =
        prepared("SELECT id, killed, act, value FROM entries WHERE id < ?1 ORDER BY id DESC LIMIT 1");
    unsigned char place[MOST_PLACE];
    uint64_t random = 1, sum = 0;
    for (uint64_t i = 0; i < looks; i++) {
        random = random * UINT64_C(6364136223846793005) + UINT64_C(1442695040888963407);
        size_t length = put_place(place, (random >> 33) % count, UINT64_MAX, UINT64_MAX);
        sqlite3_bind_blob(look, 1, place, (int)length, SQLITE_STATIC);
        if (sqlite3_step(look) == SQLITE_ROW) {
            sum += tx_found(look);
        }
        sqlite3_reset(look);
    }
    sqlite3_finalize(look);
    return sum;
}

static uint64_t floor_of(void) {
    sqlite3_stmt *look = prepared("SELECT step FROM floors WHERE one = 1");
    uint64_t floor = sqlite3_step(look) == SQLITE_ROW ? (uint64_t)sqlite3_column_int64(look, 0) : 0;
    sqlite3_finalize(look);
    return floor;
}

/* All rows in order, so many in each look. */
static uint64_t scanned(uint64_t piece) {
    sqlite3_stmt *look = prepared("SELECT id, killed, act, value FROM entries WHERE id >= ?1 ORDER BY id LIMIT ?2");
    unsigned char from[MOST_PLACE] = {0};
    size_t length = 1;
    uint64_t sum = 0, found;
    do {
        found = 0;
        sqlite3_bind_blob(look, 1, from, (int)length, SQLITE_TRANSIENT);
        sqlite3_bind_int64(look, 2, (sqlite3_int64)piece);
        while (sqlite3_step(look) == SQLITE_ROW) {
            sum += tx_found(look);
            length = (size_t)sqlite3_column_bytes(look, 0);
            memcpy(from, sqlite3_column_blob(look, 0), length);
            found++;
        }
        sqlite3_reset(look);
        /* The least place above: born is the last number, and no row has its greatest. */
        for (size_t i = length; found > 0 && ++from[--i] == 0;) {
        }
    } while (found > 0);
    sqlite3_finalize(look);
    return sum;
}

int main(int argc, char **argv) {
    if (argc != 4) {
        return 1;
    }
    uint64_t count = strtoull(argv[2], NULL, 10), more = strtoull(argv[3], NULL, 10), sum;
    open_base();
    if (strcmp(argv[1], "applied") == 0) {
        sum = applied(count, more);
    } else if (strcmp(argv[1], "looked") == 0) {
        sum = floor_of() + looked(count, more);
    } else if (strcmp(argv[1], "scanned") == 0) {
        sum = scanned(more);
    } else {
        return 1;
    }
    close_base();
    printf("%llu\n", (unsigned long long)sum);
    return 0;
}
