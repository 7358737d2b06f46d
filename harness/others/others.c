/*
 * What an engineer would else pick, at the same work: LevelDB, LMDB and SQLite beside the library, each with as many live
 * tests as geometry 16 1 2 8 3 8192 may hold, filled and worn in by the same calls. Every answer is held to a plain array.
 * Prints microseconds per call: the lowest and the highest mean of BLOCKS blocks of calls, and the slowest put of all.
 *
 *     others FOLDER      FOLDER: where those that need files put them
 *
 * harness/others/run builds it with those that are installed: WITH_LEVELDB, WITH_LMDB, WITH_SQLITE.
 */
#define _POSIX_C_SOURCE 200809L
#include <stdint.h>
#include <stdio.h>
#include <stdlib.h>
#include <string.h>
#include <sys/stat.h>
#include <time.h>

#include "mewilovang.h"
#ifdef WITH_LEVELDB
#include <leveldb/c.h>
#endif
#ifdef WITH_LMDB
#include <lmdb.h>
#endif
#ifdef WITH_SQLITE
#include <sqlite3.h>
#endif

#define BLOCKS 7
#define CALLS 2000
#define WHOLES 20
#define WORN 40000

/* An answer: whether there is one, and the test. */
typedef struct {
    int found;
    uint32_t key, payload;
} answer;

/* A store: every call fails the program if the store fails. `whole` goes over the whole store with what checks it has. */
typedef struct {
    const char *name, *whole_is;
    void (*open)(const char *folder);
    void (*put)(uint32_t key, uint32_t payload);
    void (*drop)(uint32_t key);
    answer (*look_up)(uint32_t key);
    answer (*next)(uint32_t key);
    uint32_t (*whole)(void);
} store;

static void must(int good, const char *what)
{
    if (!good) {
        fprintf(stderr, "others: %s\n", what);
        exit(1);
    }
}

/* A folder of its own for a store. */
static char *below(const char *folder, const char *name)
{
    char *path = malloc(strlen(folder) + strlen(name) + 2);
    must(path != NULL, "memory");
    sprintf(path, "%s/%s", folder, name);
    return path;
}

/* The library. */
static const uint32_t geometry[6] = {16, 1, 2, 8, 3, 8192};
static uint32_t *words_of;
static size_t length;
static uint32_t limit;

static void ours_open(const char *folder)
{
    (void)folder;
    length = mewilovang_words(geometry[0], geometry[1], geometry[2], geometry[3], geometry[4], geometry[5]);
    words_of = malloc(length * sizeof *words_of);
    must(words_of != NULL, "memory");
    limit = mewilovang_format(words_of, length, geometry[0], geometry[1], geometry[2], geometry[3], geometry[4],
                              geometry[5]).limit;
}

static void ours_put(uint32_t key, uint32_t payload)
{
    must(mewilovang_put(words_of, length, key, payload).reason == 0, "put");
}

static void ours_drop(uint32_t key)
{
    must(mewilovang_delete(words_of, length, key).reason == 0, "delete");
}

static answer ours_look_up(uint32_t key)
{
    mewilovang_looked looked = mewilovang_look_up(words_of, length, key);
    answer a = {(int)looked.found, key, looked.payload};
    return a;
}

static answer ours_next(uint32_t key)
{
    mewilovang_nexted nexted = mewilovang_next(words_of, length, key);
    answer a = {(int)nexted.found, nexted.key, nexted.payload};
    return a;
}

static uint32_t ours_whole(void)
{
    return mewilovang_check(words_of, length) == 0 ? limit : 0;
}

#ifdef WITH_LEVELDB
/* LevelDB: its default settings, no sync. Keys have their highest byte first, so that their order is that of the numbers. */
static leveldb_t *level;
static leveldb_readoptions_t *level_reading, *level_checking;
static leveldb_writeoptions_t *level_writing;

static void bytes_of(uint32_t number, char *bytes)
{
    int i;
    for (i = 0; i < 4; i++) {
        bytes[i] = (char)(number >> (24 - 8 * i));
    }
}

static uint32_t number_of(const char *bytes)
{
    const unsigned char *b = (const unsigned char *)bytes;
    return (uint32_t)b[0] << 24 | (uint32_t)b[1] << 16 | (uint32_t)b[2] << 8 | b[3];
}

static void level_open(const char *folder)
{
    char *failed = NULL;
    leveldb_options_t *options = leveldb_options_create();
    leveldb_options_set_create_if_missing(options, 1);
    level = leveldb_open(options, below(folder, "leveldb"), &failed);
    must(failed == NULL, "leveldb_open");
    level_reading = leveldb_readoptions_create();
    level_writing = leveldb_writeoptions_create();
    level_checking = leveldb_readoptions_create();
    leveldb_readoptions_set_verify_checksums(level_checking, 1);
}

static void level_put(uint32_t key, uint32_t payload)
{
    char *failed = NULL, k[4], v[4];
    bytes_of(key, k);
    bytes_of(payload, v);
    leveldb_put(level, level_writing, k, 4, v, 4, &failed);
    must(failed == NULL, "leveldb_put");
}

static void level_drop(uint32_t key)
{
    char *failed = NULL, k[4];
    bytes_of(key, k);
    leveldb_delete(level, level_writing, k, 4, &failed);
    must(failed == NULL, "leveldb_delete");
}

static answer level_look_up(uint32_t key)
{
    char *failed = NULL, *value, k[4];
    size_t size = 0;
    answer a = {0, key, 0};
    bytes_of(key, k);
    value = leveldb_get(level, level_reading, k, 4, &size, &failed);
    must(failed == NULL, "leveldb_get");
    if (value != NULL) {
        a.found = 1;
        a.payload = number_of(value);
        leveldb_free(value);
    }
    return a;
}

static answer level_next(uint32_t key)
{
    char k[4];
    size_t size;
    answer a = {0, 0, 0};
    leveldb_iterator_t *at = leveldb_create_iterator(level, level_reading);
    bytes_of(key, k);
    leveldb_iter_seek(at, k, 4);
    if (leveldb_iter_valid(at)) {
        a.found = 1;
        a.key = number_of(leveldb_iter_key(at, &size));
        a.payload = number_of(leveldb_iter_value(at, &size));
    }
    leveldb_iter_destroy(at);
    return a;
}

static uint32_t level_whole(void)
{
    char *failed = NULL;
    uint32_t number = 0;
    leveldb_iterator_t *at = leveldb_create_iterator(level, level_checking);
    for (leveldb_iter_seek_to_first(at); leveldb_iter_valid(at); leveldb_iter_next(at)) {
        number++;
    }
    leveldb_iter_get_error(at, &failed);
    must(failed == NULL, "leveldb's checksums");
    leveldb_iter_destroy(at);
    return number;
}
#endif

#ifdef WITH_LMDB
/* LMDB: a transaction for each call, no sync; a reading transaction is renewed as its manual says. */
static MDB_env *env;
static MDB_dbi dbi;
static MDB_txn *reading;

static void lmdb_open(const char *folder)
{
    char *path = below(folder, "lmdb");
    MDB_txn *txn;
    must(mkdir(path, 0700) == 0, "mkdir");
    must(mdb_env_create(&env) == 0 && mdb_env_set_mapsize(env, 64u << 20) == 0, "mdb_env_create");
    must(mdb_env_open(env, path, MDB_NOSYNC, 0600) == 0, "mdb_env_open");
    must(mdb_txn_begin(env, NULL, 0, &txn) == 0, "mdb_txn_begin");
    must(mdb_dbi_open(txn, NULL, MDB_INTEGERKEY | MDB_CREATE, &dbi) == 0, "mdb_dbi_open");
    must(mdb_txn_commit(txn) == 0, "mdb_txn_commit");
    must(mdb_txn_begin(env, NULL, MDB_RDONLY, &reading) == 0, "mdb_txn_begin");
    mdb_txn_reset(reading);
}

static void lmdb_put(uint32_t key, uint32_t payload)
{
    MDB_txn *txn;
    MDB_val k = {sizeof key, &key}, v = {sizeof payload, &payload};
    must(mdb_txn_begin(env, NULL, 0, &txn) == 0 && mdb_put(txn, dbi, &k, &v, 0) == 0, "mdb_put");
    must(mdb_txn_commit(txn) == 0, "mdb_txn_commit");
}

static void lmdb_drop(uint32_t key)
{
    MDB_txn *txn;
    MDB_val k = {sizeof key, &key};
    must(mdb_txn_begin(env, NULL, 0, &txn) == 0 && mdb_del(txn, dbi, &k, NULL) == 0, "mdb_del");
    must(mdb_txn_commit(txn) == 0, "mdb_txn_commit");
}

static answer lmdb_look_up(uint32_t key)
{
    MDB_val k = {sizeof key, &key}, v;
    answer a = {0, key, 0};
    must(mdb_txn_renew(reading) == 0, "mdb_txn_renew");
    if (mdb_get(reading, dbi, &k, &v) == 0) {
        a.found = 1;
        memcpy(&a.payload, v.mv_data, sizeof a.payload);
    }
    mdb_txn_reset(reading);
    return a;
}

/* From a key on: the first one there, or how many. */
static answer lmdb_from(uint32_t key, uint32_t *all)
{
    MDB_val k = {sizeof key, &key}, v;
    MDB_cursor *at;
    answer a = {0, 0, 0};
    int end;
    must(mdb_txn_renew(reading) == 0 && mdb_cursor_open(reading, dbi, &at) == 0, "mdb_cursor_open");
    for (end = mdb_cursor_get(at, &k, &v, MDB_SET_RANGE); end == 0; end = mdb_cursor_get(at, &k, &v, MDB_NEXT)) {
        if (all == NULL) {
            a.found = 1;
            memcpy(&a.key, k.mv_data, sizeof a.key);
            memcpy(&a.payload, v.mv_data, sizeof a.payload);
            break;
        }
        ++*all;
    }
    mdb_cursor_close(at);
    mdb_txn_reset(reading);
    return a;
}

static answer lmdb_next(uint32_t key)
{
    return lmdb_from(key, NULL);
}

static uint32_t lmdb_whole(void)
{
    uint32_t all = 0;
    lmdb_from(0, &all);
    return all;
}
#endif

#ifdef WITH_SQLITE
/* SQLite: statements made once, a transaction for each call. In memory, or in a file with synchronous = OFF and a journal. */
typedef struct {
    sqlite3 *base;
    sqlite3_stmt *put, *drop, *look_up, *next, *check;
} sqlite;

static sqlite sqlites[2];

static sqlite3_stmt *statement_of(sqlite *s, const char *text)
{
    sqlite3_stmt *statement = NULL;
    must(sqlite3_prepare_v2(s->base, text, -1, &statement, NULL) == SQLITE_OK, text);
    return statement;
}

static void sqlite_make(sqlite *s, const char *path)
{
    const char *make = "PRAGMA synchronous = OFF; CREATE TABLE tests (key INTEGER PRIMARY KEY, payload INTEGER NOT NULL)";
    must(sqlite3_open(path, &s->base) == SQLITE_OK, "sqlite3_open");
    must(sqlite3_exec(s->base, make, NULL, NULL, NULL) == SQLITE_OK, make);
    s->put = statement_of(s, "REPLACE INTO tests VALUES (?, ?)");
    s->drop = statement_of(s, "DELETE FROM tests WHERE key = ?");
    s->look_up = statement_of(s, "SELECT key, payload FROM tests WHERE key = ?");
    s->next = statement_of(s, "SELECT key, payload FROM tests WHERE key >= ? ORDER BY key LIMIT 1");
    s->check = statement_of(s, "PRAGMA integrity_check");
}

static void sqlite_change(sqlite3_stmt *statement, uint32_t key, uint32_t payload, int both)
{
    sqlite3_bind_int64(statement, 1, key);
    if (both) {
        sqlite3_bind_int64(statement, 2, payload);
    }
    must(sqlite3_step(statement) == SQLITE_DONE && sqlite3_reset(statement) == SQLITE_OK, "sqlite3_step");
}

static answer sqlite_ask(sqlite3_stmt *statement, uint32_t key)
{
    answer a = {0, 0, 0};
    sqlite3_bind_int64(statement, 1, key);
    if (sqlite3_step(statement) == SQLITE_ROW) {
        a.found = 1;
        a.key = (uint32_t)sqlite3_column_int64(statement, 0);
        a.payload = (uint32_t)sqlite3_column_int64(statement, 1);
    }
    must(sqlite3_reset(statement) == SQLITE_OK, "sqlite3_step");
    return a;
}

static uint32_t sqlite_check(sqlite *s)
{
    int good = sqlite3_step(s->check) == SQLITE_ROW && strcmp((const char *)sqlite3_column_text(s->check, 0), "ok") == 0;
    sqlite3_reset(s->check);
    return good ? limit : 0;
}

#define SQLITE(which, number, path) \
    static void which##_open(const char *folder) { (void)folder; sqlite_make(&sqlites[number], path); } \
    static void which##_put(uint32_t key, uint32_t payload) { sqlite_change(sqlites[number].put, key, payload, 1); } \
    static void which##_drop(uint32_t key) { sqlite_change(sqlites[number].drop, key, 0, 0); } \
    static answer which##_look_up(uint32_t key) { return sqlite_ask(sqlites[number].look_up, key); } \
    static answer which##_next(uint32_t key) { return sqlite_ask(sqlites[number].next, key); } \
    static uint32_t which##_whole(void) { return sqlite_check(&sqlites[number]); }

SQLITE(memory, 0, ":memory:")
SQLITE(file, 1, below(folder, "sqlite"))
#endif

#define STORE(name, whole_is, which) \
    {name, whole_is, which##_open, which##_put, which##_drop, which##_look_up, which##_next, which##_whole}

/* The library first: it says how many tests there are. */
static const store stores[] = {
    STORE("Mewilovang", "check", ours),
#ifdef WITH_LEVELDB
    STORE("LevelDB", "scan, checksums", level),
#endif
#ifdef WITH_LMDB
    STORE("LMDB", "scan", lmdb),
#endif
#ifdef WITH_SQLITE
    STORE("SQLite, memory", "integrity_check", memory),
    STORE("SQLite, file", "integrity_check", file),
#endif
};
#define STORES (sizeof stores / sizeof stores[0])

/* What the stores must hold: keys that rise, and their payloads. */
static uint32_t *keys, *payloads;

static uint64_t state;

static uint32_t random_word(void)
{
    state = state * 6364136223846793005u + 1442695040888963407u;
    return (uint32_t)(state >> 32);
}

/* The first place at or above a key. */
static uint32_t place_of(uint32_t key)
{
    uint32_t low = 0, high = limit;
    while (low < high) {
        uint32_t middle = low + (high - low) / 2;
        if (keys[middle] < key) {
            low = middle + 1;
        } else {
            high = middle;
        }
    }
    return low;
}

static int compare(const void *a, const void *b)
{
    uint32_t x = *(const uint32_t *)a, y = *(const uint32_t *)b;
    return (x > y) - (x < y);
}

/* `limit` different random keys, in rising order. */
static void choose_keys(void)
{
    uint32_t i;
    keys = malloc(limit * sizeof *keys);
    payloads = malloc(limit * sizeof *payloads);
    must(keys != NULL && payloads != NULL, "memory");
    do {
        for (i = 0; i < limit; i++) {
            keys[i] = random_word();
        }
        qsort(keys, limit, sizeof *keys, compare);
        for (i = 1; i < limit && keys[i - 1] != keys[i]; i++) {
        }
    } while (i < limit);
}

/* All tests in random order; then overwritten, or taken out and put in again, again and again. */
static void fill(const store *s)
{
    uint32_t *order = malloc(limit * sizeof *order), i;
    must(order != NULL, "memory");
    for (i = 0; i < limit; i++) {
        uint32_t other = random_word() % (i + 1);
        order[i] = order[other];
        order[other] = i;
    }
    for (i = 0; i < limit + WORN; i++) {
        uint32_t place = i < limit ? order[i] : random_word() % limit;
        if (i >= limit && i % 2 == 0) {
            s->drop(keys[place]);
        }
        payloads[place] = i;
        s->put(keys[place], i);
    }
    free(order);
}

static double now(void)
{
    struct timespec t;
    clock_gettime(CLOCK_MONOTONIC, &t);
    return (double)t.tv_sec * 1e6 + (double)t.tv_nsec / 1e3;
}

/* Lowest and highest mean, and the slowest call. */
typedef struct {
    double low, high, slowest;
} range;

/* What reading the clock adds to a call. */
static double cost;

static void note(range *r, double mean)
{
    r->low = r->low == 0 || mean < r->low ? mean : r->low;
    r->high = mean > r->high ? mean : r->high;
}

enum { LOOK_UP, NEXT, PUT, KINDS };

/* One call of a kind, every other reading of a random key that is most likely absent; its microseconds. */
static double one(const store *s, int kind, int number)
{
    uint32_t place = random_word() % limit, key = keys[place], found = 1;
    double start, time;
    answer a = {0, 0, 0};
    if (kind != PUT && number % 2 == 1) {
        key = random_word();
        place = place_of(key);
        found = place < limit && (kind == NEXT || keys[place] == key);
    }
    start = now();
    switch (kind) {
    case LOOK_UP:
        a = s->look_up(key);
        break;
    case NEXT:
        a = s->next(key);
        break;
    default:
        s->put(key, (uint32_t)number);
        payloads[place] = (uint32_t)number;
    }
    time = now() - start;
    if (kind != PUT) {
        must(a.found == (int)found, "an answer: found");
        must(!found || (a.key == keys[place] && a.payload == payloads[place]), "an answer: the test");
    }
    return time > cost ? time - cost : 0;
}

static void block(const store *s, int kind, range *r)
{
    double sum = 0;
    int i;
    for (i = 0; i < CALLS; i++) {
        double time = one(s, kind, i);
        sum += time;
        r->slowest = time > r->slowest ? time : r->slowest;
    }
    note(r, sum / CALLS);
}

static void block_whole(const store *s, range *r)
{
    double start = now();
    int i;
    for (i = 0; i < WHOLES; i++) {
        must(s->whole() == limit, "the whole store");
    }
    note(r, (now() - start) / WHOLES);
}

static void measure(const store *s)
{
    range ranges[KINDS + 1] = {{0, 0, 0}, {0, 0, 0}, {0, 0, 0}, {0, 0, 0}};
    int b, kind;
    state = 2;
    fill(s);
    for (b = 0; b < BLOCKS; b++) {
        for (kind = 0; kind < KINDS; kind++) {
            block(s, kind, &ranges[kind]);
        }
        block_whole(s, &ranges[KINDS]);
    }
    printf("%-16s", s->name);
    for (kind = 0; kind <= KINDS; kind++) {
        char text[64];
        sprintf(text, "%.2f-%.2f", ranges[kind].low, ranges[kind].high);
        printf(" %17s", text);
        if (kind == PUT) {
            printf(" %11.1f", ranges[kind].slowest);
        }
    }
    printf("  %s\n", s->whole_is);
}

int main(int count, char **arguments)
{
    size_t i;
    double start;
    must(count == 2, "others FOLDER");
    start = now();
    for (i = 0; i < 1000; i++) {
        cost = (now() - start) / (double)(i + 1);
    }
    stores[0].open(arguments[1]);
    state = 1;
    choose_keys();
    printf("%u live tests. Microseconds per call, lowest and highest mean of %d blocks of %d calls.\n\n", (unsigned)limit, BLOCKS,
           CALLS);
    printf("%-16s %17s %17s %17s %11s %17s\n", "", "look up", "next", "put", "slowest put", "the whole store");
    for (i = 0; i < STORES; i++) {
        if (i > 0) {
            stores[i].open(arguments[1]);
        }
        measure(&stores[i]);
    }
    return 0;
}
