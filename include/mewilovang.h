/*
 * Mewilovang: the record store of a brake tester's console.
 *
 * Each brake test goes under its test number (the key) with a reading (the payload) into an array of 32-bit words that
 * you lend to each call. Keys and payloads are any 32-bit numbers. The library keeps nothing between calls, takes no
 * memory of its own but stack, reads no file and prints nothing: the words that you lend are the whole store.
 *
 * Link with crates/mewilovang/out/libmewilovang.a (x86-64 Linux). Of the C library it uses memcpy and memset alone.
 *
 *
 * WHAT YOU LEND
 *
 *     store   the first word; aligned to 4 bytes, and never NULL, not even with 0 words
 *     words   how many words there are; all of them can be read, and written in format, put and delete (below, put and
 *             delete are also put_tickets and delete_tickets, which do the same to the store)
 *
 * And to stretch, which copies tests out of the store, two arrays besides:
 *
 *     keys, payloads           the first word of each; aligned to 4 bytes, and never NULL, not even with room 0
 *     key_room, payload_room   how many words each has; all of them can be written, and none lies in the store or in the
 *                              other array
 *
 * And to put_tickets and delete_tickets, which tell what each merge did, a list:
 *
 *     tickets   the first ticket; aligned to 4 bytes, and never NULL, not even with room 0
 *     room      how many tickets it has; all of them can be written, and none lies in the store
 *
 * That, enough stack (MEWILOVANG_STACK_.., below) and the rule about others (THREADS) are all that you have to see to.
 * Whatever the words hold, noise or a damaged store, each call ends, touches no word outside of what you lend, and does
 * its work or turns the call down with one of the numbers below.
 *
 *
 * WHY A CALL IS TURNED DOWN
 *
 *     0  it is not turned down
 *     1  there are fewer than 12 words
 *     2  the geometry, given to format or read from the store, breaks a limit
 *     3  the number of words is not the one that the geometry needs (mewilovang_words)
 *     4  the store is damaged: its form check finds a breach (all calls but format)
 *     5  the store is full: a put of a test number that is not in it while it holds as many as it may (put, and
 *        will_put_merge, which foretells it)
 *
 * They are looked for in this order, and the first that applies is the reason. A call that is turned down changes no
 * word of the store, of stretch's two arrays or of the tickets, and its answer has the number in `reason` and 0 in every
 * other member.
 * (check answers the number alone; show has none, its part is empty.)
 *
 * Every call but format and words makes the whole form check first. So a store that was damaged since the last call is
 * found out, and no call answers from it. A damage that leaves a store of good form (a changed payload, say) cannot be
 * seen: keep a checksum beside the store if you need one.
 *
 *
 * GEOMETRY
 *
 *     b   records in a block                2 to 16
 *     w   blocks in the window of level 0   1 to 16
 *     d   windows in a level                2 to 16
 *     g   growth from level to level        2 to 10
 *     h   levels on flash                   1 to 3
 *     p   places for blocks                 at most 8192
 *
 * Level i has room for K(i) = w * d * g^i blocks; level 0 is the small sorted level that puts go to first. Further limits:
 *     K(h) is at most 1024;
 *     p is at least 4 * (K(1) + .. + K(h)) + 8;
 *     N = 4 * b * K(h) / 5 (rounded down) - b * (K(0) + .. + K(h-1)) is at least 1.
 * N is the number of tests that the store holds at most. Some geometries, with the words that they need:
 *
 *      b   w   d   g   h      p       N    words
 *      4   1   2   4   1     40      17      438
 *     16   2   4   8   1    264     691     9316
 *     16   4   4   4   3   8192    7731   280412
 *
 *
 * WHERE EACH PART LIES
 *
 * With L = 12 + K(0) * (1 + 2b) and F = L + K(1) + .. + K(h). Last column: geometry 4 1 2 4 1 40.
 *
 *     from word             what is there                                          example
 *     0                     b, w, d, g, h, p                                        0 to   5
 *     6                     live: the tests in the store                            6
 *     7                     hand: the place last written                            7
 *     8                     c: the records in level 0, delete marks with them       8
 *     9                     the blocks of levels 1, 2 and 3; 0 above h              9 to  11
 *     12                    level 0: K(0) mark words                               12 and 13
 *     12 + K(0)             level 0: K(0) * b keys                                 14 to  21
 *     12 + K(0) * (1 + b)   level 0: K(0) * b payloads                             22 to  29
 *     L                     list of level 1: K(1) place numbers in key order       30 to  37
 *     L + K(1)              list of level 2, if h is 2 or 3: K(2) place numbers
 *     L + K(1) + K(2)       list of level 3, if h is 3: K(3) place numbers
 *     F                     p places of 2 + 2b words each                          38 to 437
 *
 * Place n, from 0 to p - 1, begins at word F + n * (2 + 2b), in the example at 38 + 10 * n. It has the number of its
 * records, their mark word, b keys and b payloads. The store ends with the last place, so it has F + p * (2 + 2b) words.
 * In a mark word bit 0 is for the first record; 1 says that the test is deleted. Bit j of mark word n of level 0 is for
 * record n * b + j. Unused keys, payloads, bits and list entries are 0. A place that no list names may hold anything.
 *
 *
 * WHICH WORDS CHANGE
 *
 *     any call that is turned down                 none
 *     check, look_up, next, stretch, show, about,  none
 *     will_put_merge, will_delete_merge
 *     format                                       every word is written
 *     delete of a test not in the store            none
 *     put, delete without a merge                  words 6 and 8 (live, c) and level 0, words 12 to L - 1
 *     put, delete with merges                      words 6 to 11, level 0, the lists, and the places that blocks are
 *                                                  written to
 *
 * A call is without a merge if its answer counts none; A PROGRESS BAR says how to know it beforehand. Words 0 to 5 change
 * in format alone. Of each of its two arrays stretch writes the first `written` entries, as many as it answers, and leaves
 * the others as they were. Of their list put_tickets and delete_tickets write one ticket for each merge that the answer
 * counts, from the first on, as far as the list goes, and leave the others as they were.
 *
 * No block in use is written over: each merge, and each compacting of a level, writes to places that no list named when
 * it began. A block that leaves its level keeps its words until its place is written to again. So a call with one merge
 * and nothing compacted writes to places that no list named before the call. With more, the later ones may write to a
 * place that an earlier one set free, which was in use before the call.
 *
 *
 * A PROGRESS BAR
 *
 * A put or delete makes one merge into level 1, or none, and no merge at all without that one: it is the first of the call.
 * It makes one exactly if level 0 is full, with K(0) * b records, and has no record of the test, delete marks counted as
 * records, and the call is not turned down; a delete only if the test is in the store besides. So overwriting a test that
 * stands in level 0 never merges, nor does putting again a test whose delete mark stands there.
 *
 * will_put_merge and will_delete_merge say so before the call: `merges`, 1 or 0, and the `reason` that the call would be
 * turned down for, or 0. If you change no word in between, the call then makes exactly so many merges into level 1. Show
 * the bar if `merges` is 1. If it is 0, the call writes no block. The first merge writes at most w * (g + 1) blocks (5 with
 * 4 1 2 4 1 40) and may write none; the answer counts them in level1.written. What follows it is not foretold: levels
 * compacted and merges further down. The answer counts both, and put_tickets tells the merges one by one, without the
 * compacting.
 *
 *
 * BYTE ORDER
 *
 * The library reads and writes whole words and never looks at bytes: in memory a store is in the order of your machine
 * (x86-64: lowest byte first). To save a store for another machine, save each word as four bytes, lowest byte first,
 * and make words of them again before you lend them.
 *
 *
 * WHAT A CALL COSTS
 *
 * The form check reads size words, level 0, lists and each block that a list names, so it costs most of every call. In
 * form checks, over full stores; measured, docs/SPEED.md:
 *
 *     check            1
 *     look_up, next    1.0 to 1.1, next in a store of 40 places 1.2 to 1.3
 *     stretch          1 and one walk from `first` on, as far as the arrays have room. All tests of a store at once took
 *                      3.3 to 5.9, in one of 40 places 1.8 to 2.0. So ask it for many tests at once, and not next for
 *                      one after the other
 *     show, about      0.9 to 1.0, right after a check
 *     will_..          1.0 in stores of 1160 places and more, up to 1.1 in those of 264 and 136, 1.1 to 1.2 in one of 40
 *     put              1 and its merges. On average 1.0 to 1.2 in stores of 1160 places and more, 1.4 to 1.5 in those of
 *                      264 and 136, 2.5 to 3.1 in one of 40. The slowest put of a run took 2.0 to 11.0; one that the
 *                      operating system interrupts takes longer
 *     delete           1 and its merges. On average 1.0 to 1.2, 1.2 to 1.4 and 1.8 to 2.2 in the same stores as put
 *     put_tickets      as put, and 0.15 to 0.35 microseconds (not form checks) more; with merges 0.2 to 1.6 in stores of up
 *                      to 1160 places, up to some 6 in larger ones
 *     delete_tickets   as delete, and 0.2 to 1 microsecond more in stores of up to 264 places, merges with it
 *     format           no form check: it writes every word once
 *     words            a few multiplications
 *
 * One form check of a full store of geometry 16 1 2 8 3 8192, with 10771 tests in 279774 words, took 19
 * to 30 microseconds where the same store had just been checked, and 43 to 46 after other work (the middle of 15 calls
 * over five runs; single calls 35 to 74). That was on a virtual machine with two cores; your times differ, the ratios less so.
 *
 *
 * THREADS
 *
 * There is no global state. Two threads may read one store at the same time (check, look_up, next, stretch, show, about,
 * will_put_merge, will_delete_merge).
 * While any call runs on a store, nothing else may write its words: no other thread, no interrupt, no device. While
 * format, put or delete runs, nothing else may read them either. While stretch runs, nothing else may read or write its
 * two arrays, and while put_tickets or delete_tickets runs, its tickets: each thread lends its own. Different stores have
 * nothing to do with each other.
 *
 *
 * POWER LOSS
 *
 * If power is lost while format, put or delete runs, nothing is promised about the words: they may be damaged (4), or hold
 * a store that passes and lacks tests. Keep a copy of the words from before the call where this can happen. Between calls,
 * from the first format on that is not turned down, the words are always a whole store.
 *
 *
 * EXAMPLE (c/console.c has a longer one)
 *
 *     static uint32_t store[438];
 *
 *     if (mewilovang_words(4, 1, 2, 4, 1, 40) != 438) { .. }
 *     mewilovang_format(store, 438, 4, 1, 2, 4, 1, 40);
 *
 *     mewilovang_changed put = mewilovang_put(store, 438, test, newtons);
 *     if (put.reason != 0) { .. }
 *
 *     mewilovang_looked sheet = mewilovang_look_up(store, 438, test);
 *     if (sheet.reason == 0 && sheet.found) { .. sheet.payload .. }
 *
 *     uint32_t keys[8], payloads[8], from = 0;             // all tests, in the order of their numbers, up to 8 at a time
 *     for (;;) {
 *         mewilovang_stretched piece = mewilovang_stretch(store, 438, from, UINT32_MAX, keys, 8, payloads, 8);
 *         if (piece.reason != 0) { .. }
 *         for (uint32_t i = 0; i < piece.written; i++) { .. keys[i] .. payloads[i] .. }
 *         if (!piece.more) break;
 *         from = keys[piece.written - 1] + 1;              // does not wrap: more follow, so that key is below the last
 *     }
 */
#ifndef MEWILOVANG_H
#define MEWILOVANG_H

#include <stddef.h>
#include <stdint.h>

#ifdef __cplusplus
extern "C" {
#endif

/*
 * The version. Major: a call or the layout of the store changes, so a store or a caller of before may not fit. Minor:
 * calls are added. Patch: nothing that a caller sees.
 *     1.0.0  words, format, check, look_up, next, show, put, delete
 *     1.1.0  about
 *     1.2.0  stretch
 *     1.3.0  put_tickets, delete_tickets
 *     1.4.0  will_put_merge, will_delete_merge
 */
#define MEWILOVANG_VERSION_MAJOR 1
#define MEWILOVANG_VERSION_MINOR 4
#define MEWILOVANG_VERSION_PATCH 2
#define MEWILOVANG_VERSION "1.4.2"

/*
 * The bytes of stack to have free for each call, from its return address down; the arguments and the answer stand in your
 * own frame. A bound read off the object code and not proved: .ci/stack walks every way through it (no recursion, no
 * indirect call, no frame of changing size) and takes the deepest, rounded up to a whole KiB, and 1 KiB more. c/stack.c
 * measures that no call takes more. memcpy and memset are allowed 128 bytes each, which is an assumption about the C
 * library; what the dynamic loader takes where it looks them up at their first call is not in these numbers.
 */
#define MEWILOVANG_STACK_WORDS (2 * 1024)
#define MEWILOVANG_STACK_FORMAT (2 * 1024)
#define MEWILOVANG_STACK_CHECK (19 * 1024)
#define MEWILOVANG_STACK_LOOK_UP (19 * 1024)
#define MEWILOVANG_STACK_NEXT (21 * 1024)
#define MEWILOVANG_STACK_STRETCH (21 * 1024)
#define MEWILOVANG_STACK_SHOW (19 * 1024)
#define MEWILOVANG_STACK_ABOUT (19 * 1024)
#define MEWILOVANG_STACK_WILL_PUT_MERGE (20 * 1024)
#define MEWILOVANG_STACK_WILL_DELETE_MERGE (19 * 1024)
#define MEWILOVANG_STACK_PUT (77 * 1024)
#define MEWILOVANG_STACK_DELETE (77 * 1024)
#define MEWILOVANG_STACK_PUT_TICKETS (85 * 1024)
#define MEWILOVANG_STACK_DELETE_TICKETS (85 * 1024)

/* limit: N, the tests that the store holds at most. */
typedef struct {
    uint32_t reason, limit;
} mewilovang_formatted;

/* found: 1 if the test is in the store, else 0; payload: its reading, 0 if it is not. */
typedef struct {
    uint32_t reason, found, payload;
} mewilovang_looked;

/* found: 1 if there is such a test, else 0; key, payload: its number and reading, 0 if there is none. */
typedef struct {
    uint32_t reason, found, key, payload;
} mewilovang_nexted;

/* written: the tests written to the two arrays; more: 1 if further tests of the stretch follow, else 0. */
typedef struct {
    uint32_t reason, written, more;
} mewilovang_stretched;

/* A part of the store: store[start] to store[start + length - 1]. Both are 0 for an empty part. */
typedef struct {
    size_t start, length;
} mewilovang_part;

/*
 * b to p: the geometry; live: the tests in the store; limit: N, the tests that it holds at most; top: the records in
 * level 0, delete marks with them; blocks1 to blocks3: the blocks of levels 1, 2 and 3, 0 above h.
 */
typedef struct {
    uint32_t reason, b, w, d, g, h, p, live, limit, top, blocks1, blocks2, blocks3;
} mewilovang_about_store;

/* reason: the one that the call would be turned down for, or 0; merges: 1 if it would merge, else 0. */
typedef struct {
    uint32_t reason, merges;
} mewilovang_forecast;

/* Merges into a level, blocks written by them, blocks written compacting the level. */
typedef struct {
    uint32_t merges, written, compacted;
} mewilovang_counts;

/* live: 1 if the test was in the store before the call, else 0; then the counts of levels 1, 2 and 3, 0 above h. */
typedef struct {
    uint32_t reason, live;
    mewilovang_counts level1, level2, level3;
} mewilovang_changed;

/*
 * What a merge did. It took a run of w * g^level blocks out of `level`, 0 to h - 1, into the level below it. first: the
 * number of the run's first block in its level, from 0, before the run left it; in level 0, whose records stand in pages of
 * b, the number of the page. overlap: the blocks of the level below whose range of keys meets the run's; no other run of
 * `level` meets fewer, and it is at most w * g^(level + 1). written: the blocks that it wrote, at most w * g^level +
 * overlap + 1, out of level 0 at most w + overlap; what compacting a level wrote afterwards is not in it.
 */
typedef struct {
    uint32_t level, first, overlap, written;
} mewilovang_ticket;

/* The words that a geometry needs, which is what you lend with it; 0 if it breaks a limit. At most 288524. */
size_t mewilovang_words(uint32_t b, uint32_t w, uint32_t d, uint32_t g, uint32_t h, uint32_t p);

/*
 * An empty store of this geometry, whatever the words were before. Every word is written.
 * Turned down for 1, 2 or 3.
 */
mewilovang_formatted mewilovang_format(uint32_t *store, size_t words, uint32_t b, uint32_t w, uint32_t d, uint32_t g,
                                       uint32_t h, uint32_t p);

/* The reason 1 to 4 that the store is turned down for, or 0. Changes no word. */
uint32_t mewilovang_check(const uint32_t *store, size_t words);

/* The reading of a test: of its last put. Changes no word. Turned down for 1 to 4. */
mewilovang_looked mewilovang_look_up(const uint32_t *store, size_t words, uint32_t key);

/* The test in the store with the smallest number at or above `key`. Changes no word. Turned down for 1 to 4. */
mewilovang_nexted mewilovang_next(const uint32_t *store, size_t words, uint32_t key);

/*
 * The tests in the store with numbers from `first` to `last`, both included, in rising order: their numbers to `keys`,
 * their readings to `payloads`, as many as the shorter of the two arrays has room for. Entries behind the last one written
 * keep their content in both. If `first` is above `last` there are none. Changes no word of the store. Turned down for 1
 * to 4, whatever `first` and `last` are; both arrays then keep their content.
 *
 * To go on with the rest, call again from keys[written - 1] + 1, with the same `last` and with arrays of any room. Where
 * something was written and `more` is 1, the last number written is below `last`, so this sum does not wrap.
 *
 * With room 0 in one of the arrays nothing is written, and `more` is 1 if the stretch has a test at all. A loop that goes
 * on while `more` is 1 alone would not end then, and there is no keys[written - 1]: lend it room for one test or more.
 */
mewilovang_stretched mewilovang_stretch(const uint32_t *store, size_t words, uint32_t first, uint32_t last, uint32_t *keys,
                                        size_t key_room, uint32_t *payloads, size_t payload_room);

/*
 * Of a level, 1 to h, the block whose first to last key encloses `key`, if there is one, as that part of the store: 2 + 2b
 * words, which are the number of its records, their delete marks (bit 0 for the first), b keys and b payloads, 0 where
 * unused. An empty part if there is none, or the level is another number, or the store is turned down; ask check why.
 * Changes no word.
 */
mewilovang_part mewilovang_show(const uint32_t *store, size_t words, uint32_t level, uint32_t key);

/*
 * What the store says of itself: its geometry, the tests in it and the most it holds, the records in level 0, the blocks of
 * each level. "live of limit tests stored". Changes no word. Turned down for 1 to 4.
 */
mewilovang_about_store mewilovang_about(const uint32_t *store, size_t words);

/*
 * If a put of this test, whatever the reading, or a delete of it is going to merge: its merges into level 1, 1 or 0, and
 * the reason 1 to 5 that it would be turned down for (a delete 1 to 4), or 0. `merges` is 0 where `reason` is not. Changes
 * no word. See A PROGRESS BAR.
 */
mewilovang_forecast mewilovang_will_put_merge(const uint32_t *store, size_t words, uint32_t key);
mewilovang_forecast mewilovang_will_delete_merge(const uint32_t *store, size_t words, uint32_t key);

/*
 * The reading of a test, over the one that it had. If level 0 is full and has no record of the test, delete marks counted,
 * blocks are merged downward first, and the answer counts them: a call writes few blocks or none, but a merge can set off
 * others. Turned down for 1 to 5; 5 only for a test that is not in the store.
 */
mewilovang_changed mewilovang_put(uint32_t *store, size_t words, uint32_t key, uint32_t payload);

/* A test out of the store. One that is not in it changes no word (reason 0, live 0). Merges as put. Turned down for 1 to 4. */
mewilovang_changed mewilovang_delete(uint32_t *store, size_t words, uint32_t key);

/*
 * Put and delete, and a ticket for each merge that the call makes, in the order of the merges: what a slow call did. Store
 * and answer are those of put and delete, whatever `room` is. If there are more merges than tickets, the further ones are
 * only counted; tickets that are not reached keep their content, and so do all where the call is turned down or merges
 * nothing. The number of tickets filled is the smaller of `room` and of the merges that the answer counts for the three
 * levels. If all fitted, the blocks written of the tickets with level i add up to the answer's `written` for level i + 1. No
 * call makes more than 512 merges; the tests' stores make up to six.
 */
mewilovang_changed mewilovang_put_tickets(uint32_t *store, size_t words, uint32_t key, uint32_t payload,
                                          mewilovang_ticket *tickets, size_t room);
mewilovang_changed mewilovang_delete_tickets(uint32_t *store, size_t words, uint32_t key, mewilovang_ticket *tickets,
                                             size_t room);

#if defined(__cplusplus) && __cplusplus >= 201103L
#define MEWILOVANG_HOLDS(fact, text) static_assert(fact, text)
#elif !defined(__cplusplus) && defined(__STDC_VERSION__) && __STDC_VERSION__ >= 201112L
#define MEWILOVANG_HOLDS(fact, text) _Static_assert(fact, text)
#endif
#ifdef MEWILOVANG_HOLDS
MEWILOVANG_HOLDS(sizeof(uint32_t) == 4 && sizeof(size_t) == 8, "the library is built for x86-64");
MEWILOVANG_HOLDS(sizeof(mewilovang_formatted) == 8, "mewilovang_formatted has gaps");
MEWILOVANG_HOLDS(sizeof(mewilovang_looked) == 12, "mewilovang_looked has gaps");
MEWILOVANG_HOLDS(sizeof(mewilovang_nexted) == 16, "mewilovang_nexted has gaps");
MEWILOVANG_HOLDS(sizeof(mewilovang_stretched) == 12, "mewilovang_stretched has gaps");
MEWILOVANG_HOLDS(sizeof(mewilovang_part) == 16, "mewilovang_part has gaps");
MEWILOVANG_HOLDS(sizeof(mewilovang_ticket) == 16, "mewilovang_ticket has gaps");
MEWILOVANG_HOLDS(sizeof(mewilovang_about_store) == 52, "mewilovang_about_store has gaps");
MEWILOVANG_HOLDS(sizeof(mewilovang_forecast) == 8, "mewilovang_forecast has gaps");
MEWILOVANG_HOLDS(sizeof(mewilovang_counts) == 12, "mewilovang_counts has gaps");
MEWILOVANG_HOLDS(sizeof(mewilovang_changed) == 44, "mewilovang_changed has gaps");
#undef MEWILOVANG_HOLDS
#endif

#ifdef __cplusplus
}
#endif

#endif
