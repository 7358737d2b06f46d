/*
 * A brake tester's console over the store: format once, then one event after the other. The readings of a test, the brake
 * forces of its left and right wheel in newtons, are packed into one payload. Tests are numbered by date, 0 to 49 on the
 * first day, 50 to 99 on the second. c/console.out is what it must print.
 */
#include <stdio.h>
#include <string.h>

#include "mewilovang.h"

/* A small geometry: blocks of 4 records, one level on flash of 8 blocks, 40 places. */
#define WORDS 438
#define PLACES 40
#define BLOCK 4

/* The numbers that a day has, and the tests that a listing has room for at a time. */
#define DAY_NUMBERS 50
#define PIECE 5

/* The merges of one call that the console has room to tell of. */
#define TICKETS 4

enum kind { MEASURED, TRACED, DELETED, SHEET, ALL, DAY, NEXT, BLOCK_AROUND, STORED, FLIP, CHECK };

struct event {
    enum kind kind;
    uint32_t test;
    uint32_t left, right;
};

static uint32_t store[WORDS];

static const char *why(uint32_t reason)
{
    switch (reason) {
    case 0:
        return "all is well";
    case 1:
        return "fewer than 12 words";
    case 2:
        return "the geometry breaks a limit";
    case 3:
        return "not the words that the geometry needs";
    case 4:
        return "the store is damaged";
    default:
        return "the store is full";
    }
}

static unsigned long written(mewilovang_counts level)
{
    return (unsigned long)level.written + level.compacted;
}

static void print_written(mewilovang_changed a)
{
    unsigned long blocks = written(a.level1) + written(a.level2) + written(a.level3);
    if (blocks != 0) {
        printf(", blocks written: %lu", blocks);
    }
    printf("\n");
}

static void print_stored(uint32_t test, mewilovang_changed a)
{
    if (a.reason != 0) {
        printf("test %u not stored: %s (%u)\n", (unsigned)test, why(a.reason), (unsigned)a.reason);
        return;
    }
    printf("test %u stored%s", (unsigned)test, a.live ? " over an older reading" : "");
    print_written(a);
}

/* The progress bar, before a call that will merge. None before one that is turned down: the call itself says why. */
static void show_bar(mewilovang_forecast call)
{
    if (call.merges != 0) {
        mewilovang_about_store a = mewilovang_about(store, WORDS);
        printf("bar: at most %u blocks for the first merge\n", (unsigned)(a.w * (a.g + 1)));
    }
}

static void measured(uint32_t test, uint32_t left, uint32_t right)
{
    show_bar(mewilovang_will_put_merge(store, WORDS, test));
    print_stored(test, mewilovang_put(store, WORDS, test, left << 16 | right));
}

/* The same, and what made it slow: a line for each of its merges, as many as there are tickets for. */
static void traced(uint32_t test, uint32_t left, uint32_t right)
{
    mewilovang_ticket tickets[TICKETS];
    mewilovang_changed a;
    uint32_t merges, i;
    show_bar(mewilovang_will_put_merge(store, WORDS, test));
    a = mewilovang_put_tickets(store, WORDS, test, left << 16 | right, tickets, TICKETS);
    merges = a.level1.merges + a.level2.merges + a.level3.merges;
    print_stored(test, a);
    for (i = 0; i < merges && i < TICKETS; i++) {
        printf("  merge out of level %u: run from %u on, overlap %u, blocks written: %u\n", (unsigned)tickets[i].level,
               (unsigned)tickets[i].first, (unsigned)tickets[i].overlap, (unsigned)tickets[i].written);
    }
}

static void deleted(uint32_t test)
{
    mewilovang_changed a;
    show_bar(mewilovang_will_delete_merge(store, WORDS, test));
    a = mewilovang_delete(store, WORDS, test);
    if (a.reason != 0) {
        printf("test %u not deleted: %s (%u)\n", (unsigned)test, why(a.reason), (unsigned)a.reason);
        return;
    }
    if (!a.live) {
        printf("test %u not deleted: no such test\n", (unsigned)test);
        return;
    }
    printf("test %u deleted", (unsigned)test);
    print_written(a);
}

static void sheet(uint32_t test)
{
    mewilovang_looked a = mewilovang_look_up(store, WORDS, test);
    uint32_t left = a.payload >> 16, right = a.payload & 0xFFFF;
    uint32_t more = left < right ? right : left, less = left < right ? left : right;
    if (a.reason != 0) {
        printf("test %u: %s (%u)\n", (unsigned)test, why(a.reason), (unsigned)a.reason);
    } else if (!a.found) {
        printf("test %u: no such test\n", (unsigned)test);
    } else {
        printf("test %u: left %u N, right %u N, %u %% apart\n", (unsigned)test, (unsigned)left, (unsigned)right,
               more == 0 ? 0 : (unsigned)((more - less) * 100 / more));
    }
}

static void print_test(uint32_t test, uint32_t reading)
{
    printf(" %u (%u/%u N)", (unsigned)test, (unsigned)(reading >> 16), (unsigned)(reading & 0xFFFF));
}

/* The tests from the first to the last number, a line for each call: where more follow, some were written (PIECE > 0). */
static void tests(uint32_t first, uint32_t last)
{
    uint32_t keys[PIECE], readings[PIECE], i;
    for (;;) {
        mewilovang_stretched a = mewilovang_stretch(store, WORDS, first, last, keys, PIECE, readings, PIECE);
        printf("tests %u to %u:", (unsigned)first, (unsigned)last);
        if (a.reason != 0) {
            printf(" %s (%u)\n", why(a.reason), (unsigned)a.reason);
            return;
        }
        for (i = 0; i < a.written; i++) {
            print_test(keys[i], readings[i]);
        }
        if (!a.more) {
            printf("%s\n", a.written == 0 ? " none" : "");
            return;
        }
        printf(", more follow\n");
        first = keys[a.written - 1] + 1;
    }
}

static void all_tests(void)
{
    printf("all tests\n");
    tests(0, UINT32_MAX);
}

static void day(uint32_t number)
{
    printf("day %u\n", (unsigned)number);
    tests((number - 1) * DAY_NUMBERS, number * DAY_NUMBERS - 1);
}

static void next(uint32_t from)
{
    mewilovang_nexted a = mewilovang_next(store, WORDS, from);
    printf("next test from %u on:", (unsigned)from);
    if (a.reason != 0) {
        printf(" %s (%u)", why(a.reason), (unsigned)a.reason);
    } else if (!a.found) {
        printf(" none");
    } else {
        print_test(a.key, a.payload);
    }
    printf("\n");
}

/* The block's words are its record count, its marks, its keys, its payloads. */
static void block_around(uint32_t test)
{
    mewilovang_part part = mewilovang_show(store, WORDS, 1, test);
    uint32_t i;
    printf("level 1 around test %u:", (unsigned)test);
    if (part.length == 0) {
        printf(" no block\n");
        return;
    }
    printf(" words %lu to %lu, %u records:", (unsigned long)part.start, (unsigned long)(part.start + part.length - 1),
           (unsigned)store[part.start]);
    for (i = 0; i < store[part.start]; i++) {
        printf(" %u", (unsigned)store[part.start + 2 + i]);
    }
    printf("\n");
}

static void stored(void)
{
    mewilovang_about_store a = mewilovang_about(store, WORDS);
    if (a.reason != 0) {
        printf("tests stored: %s (%u)\n", why(a.reason), (unsigned)a.reason);
        return;
    }
    printf("%u of %u tests stored\n", (unsigned)a.live, (unsigned)a.limit);
}

static void check(size_t words)
{
    uint32_t reason = mewilovang_check(store, words);
    if (words == WORDS) {
        printf("check: %s (%u)\n", why(reason), (unsigned)reason);
    } else {
        printf("check of %lu words: %s (%u)\n", (unsigned long)words, why(reason), (unsigned)reason);
    }
}

/* `test` is the day for DAY, the number of words for CHECK, and for FLIP the word whose top bit is lost or comes back. */
static void handle(struct event e)
{
    switch (e.kind) {
    case MEASURED:
        measured(e.test, e.left, e.right);
        break;
    case TRACED:
        traced(e.test, e.left, e.right);
        break;
    case DELETED:
        deleted(e.test);
        break;
    case SHEET:
        sheet(e.test);
        break;
    case ALL:
        all_tests();
        break;
    case DAY:
        day(e.test);
        break;
    case NEXT:
        next(e.test);
        break;
    case BLOCK_AROUND:
        block_around(e.test);
        break;
    case STORED:
        stored();
        break;
    case FLIP:
        store[e.test] ^= 0x80000000u;
        break;
    case CHECK:
        check(e.test);
        break;
    }
}

static void run(const struct event *events, size_t n)
{
    size_t i;
    for (i = 0; i < n; i++) {
        handle(events[i]);
    }
}

#define RUN(events) run(events, sizeof events / sizeof events[0])

static const struct event first_tests[] = {
    {MEASURED, 10, 2410, 2490}, {MEASURED, 20, 2420, 2480}, {MEASURED, 30, 2430, 2470}, {MEASURED, 40, 2440, 2460},
    {MEASURED, 50, 2450, 2450}, {MEASURED, 60, 2460, 2440}, {MEASURED, 70, 2470, 2430}, {MEASURED, 80, 2480, 2420},
    {MEASURED, 90, 2490, 2410}, {MEASURED, 50, 1800, 2600}, {DELETED, 20, 0, 0},        {DELETED, 21, 0, 0},
    {SHEET, 50, 0, 0},          {SHEET, 20, 0, 0},          {SHEET, 40, 0, 0},          {ALL, 0, 0, 0},
    {DAY, 1, 0, 0},             {BLOCK_AROUND, 25, 0, 0},   {BLOCK_AROUND, 55, 0, 0},   {STORED, 0, 0, 0},
};

static const struct event until_full[] = {
    {MEASURED, 15, 2415, 2485}, {MEASURED, 25, 2425, 2475}, {MEASURED, 35, 2435, 2465}, {MEASURED, 45, 2445, 2455},
    {MEASURED, 46, 2446, 2454}, {MEASURED, 47, 2447, 2453}, {MEASURED, 48, 2448, 2452}, {MEASURED, 49, 2449, 2451},
    {MEASURED, 55, 2455, 2445}, {MEASURED, 100, 2500, 2400}, {STORED, 0, 0, 0},         {MEASURED, 49, 2300, 2600},
    {DELETED, 60, 0, 0},        {TRACED, 100, 2500, 2400},  {ALL, 0, 0, 0},             {DAY, 1, 0, 0},
    {DAY, 2, 0, 0},             {DAY, 4, 0, 0},             {NEXT, 56, 0, 0},           {NEXT, 101, 0, 0},
    {BLOCK_AROUND, 37, 0, 0},   {SHEET, 15, 0, 0},          {SHEET, 60, 0, 0},
};

static const struct event damaged[] = {
    {CHECK, WORDS, 0, 0}, {SHEET, 15, 0, 0}, {MEASURED, 49, 2449, 2451}, {DELETED, 15, 0, 0},
    {ALL, 0, 0, 0},       {DAY, 2, 0, 0},    {NEXT, 56, 0, 0},           {BLOCK_AROUND, 37, 0, 0},
    {STORED, 0, 0, 0},
};

static const struct event repaired[] = {
    {CHECK, WORDS, 0, 0},
    {CHECK, 11, 0, 0},
    {CHECK, WORDS - 1, 0, 0},
};

static const struct event flip = {FLIP, 70, 0, 0};

int main(void)
{
    static uint32_t before[WORDS];
    mewilovang_formatted made;
    unsigned changed = 0;
    size_t i;

    if (mewilovang_words(BLOCK, 1, 2, 4, 1, PLACES) != WORDS) {
        return 1;
    }
    made = mewilovang_format(store, WORDS, BLOCK, 1, 2, 4, 1, PLACES);
    if (made.reason != 0) {
        return 1;
    }
    printf("%u words lent, room for %u tests\n", WORDS, (unsigned)made.limit);
    RUN(first_tests);
    RUN(until_full);

    printf("a bit of word 70 flips\n");
    handle(flip);
    memcpy(before, store, sizeof store);
    RUN(damaged);
    for (i = 0; i < WORDS; i++) {
        changed += before[i] != store[i];
    }
    printf("words changed by these calls: %u\n", changed);
    printf("the bit flips back\n");
    handle(flip);
    RUN(repaired);

    made = mewilovang_format(store, WORDS, BLOCK, 1, 2, 4, 1, PLACES - 1);
    printf("format with %u places: %s (%u)\n", PLACES - 1, why(made.reason), (unsigned)made.reason);
    sheet(15);
    return 0;
}
