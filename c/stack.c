/*
 * How much stack each call takes. Each call has a stack of its own here, filled with a pattern before the first one; what
 * is no longer the pattern after the last was used. Prints a line for each call: its name and the bytes measured, from its
 * return address down. .ci/stack holds them to what the object code lets each call take. Exit status 1 if the stores were
 * not driven through the merges that the numbers are to be true for.
 *
 * The geometries: the one with the longest store of all, the largest one of three levels, two small ones. In blocks of two
 * records many hold one alone, so that a merge's leftover joins the block before it: that is the deepest way of all, which
 * the large ones never take in so few calls.
 *
 * Built with -fno-shrink-wrap -maccumulate-outgoing-args, so that make_call has its whole frame where it reads the stack
 * pointer, and the pointer stands still until the call.
 */
#define _XOPEN_SOURCE 700
#include <stdio.h>
#include <stdlib.h>
#include <string.h>
#include <ucontext.h>

#include "mewilovang.h"

#define STACK_BYTES (512 * 1024)
#define PATTERN 0xA5
#define ROUNDS 16000
#define ROOM 64

/* Every call, one line for each: the readings between CHECK and PUT are made as often as each other. */
#define EVERY(CALL) \
    CALL(WORDS, "words", words = mewilovang_words(g[0], g[1], g[2], g[3], g[4], g[5])) \
    CALL(FORMAT, "format", reason = mewilovang_format(store, words, g[0], g[1], g[2], g[3], g[4], g[5]).reason) \
    CALL(CHECK, "check", reason = mewilovang_check(store, words)) \
    CALL(LOOK_UP, "look_up", reason = mewilovang_look_up(store, words, key).reason) \
    CALL(NEXT, "next", nexted = mewilovang_next(store, words, key)) \
    CALL(STRETCH, "stretch", stretched = mewilovang_stretch(store, words, key, UINT32_MAX, keys, ROOM, payloads, ROOM)) \
    CALL(SHOW, "show", shown = mewilovang_show(store, words, 1 + key % 3, key)) \
    CALL(ABOUT, "about", reason = mewilovang_about(store, words).reason) \
    CALL(WILL_PUT_MERGE, "will_put_merge", reason = mewilovang_will_put_merge(store, words, key).reason) \
    CALL(WILL_DELETE_MERGE, "will_delete_merge", reason = mewilovang_will_delete_merge(store, words, key).reason) \
    CALL(PUT, "put", count(mewilovang_put(store, words, key, key))) \
    CALL(DELETE, "delete", count(mewilovang_delete(store, words, key))) \
    CALL(PUT_TICKETS, "put_tickets", count(mewilovang_put_tickets(store, words, key, key, tickets, ROOM))) \
    CALL(DELETE_TICKETS, "delete_tickets", count(mewilovang_delete_tickets(store, words, key, tickets, ROOM)))

#define NUMBER(which, name, statement) which,
#define NAME(which, name, statement) name,
#define CASE(which, name, statement) \
    case which: \
        statement; \
        break;

enum { EVERY(NUMBER) CALLS };

static const char *const names[CALLS] = {EVERY(NAME)};

static const uint32_t geometries[][6] = {
    {4, 1, 2, 4, 1, 40},
    {2, 1, 4, 4, 2, 328},
    {16, 16, 16, 2, 2, 8192},
    {16, 4, 4, 4, 3, 8192},
};
#define GEOMETRIES (sizeof geometries / sizeof geometries[0])

static unsigned char stacks[CALLS][STACK_BYTES];
static ucontext_t here, there;

/* What the call on the other stack is given and what it answers. */
static int call;
static const uint32_t *geometry;
static uint32_t *store;
static size_t words;
static uint32_t key;
static unsigned char *top;
static uint32_t keys[ROOM], payloads[ROOM];
static mewilovang_ticket tickets[ROOM];
static uint32_t reason;
static mewilovang_nexted nexted;
static mewilovang_stretched stretched;
static mewilovang_part shown;
static uint32_t merges[3], compacted;

static uint32_t random_word(void)
{
    static uint64_t state = 1;
    state = state * 6364136223846793005u + 1442695040888963407u;
    return (uint32_t)(state >> 32);
}

static void count(mewilovang_changed a)
{
    reason = a.reason;
    merges[0] += a.level1.merges;
    merges[1] += a.level2.merges;
    merges[2] += a.level3.merges;
    compacted += a.level1.compacted + a.level2.compacted + a.level3.compacted;
}

static void make_call(void)
{
    const uint32_t *g = geometry;
    __asm__ volatile("mov %%rsp, %0" : "=r"(top));
    switch (call) {
        EVERY(CASE)
    }
    __asm__ volatile("" : : : "memory"); /* something after the call, so that it is not made as a jump */
}

static void on_its_stack(int which)
{
    call = which;
    getcontext(&there);
    there.uc_stack.ss_sp = stacks[which];
    there.uc_stack.ss_size = STACK_BYTES;
    there.uc_link = &here;
    makecontext(&there, make_call, 0);
    swapcontext(&here, &there);
}

/* From the stack pointer before the call down to the lowest byte that was written. */
static size_t deepest(int which)
{
    size_t i = 0;
    on_its_stack(which);
    while (stacks[which][i] == PATTERN) {
        i++;
    }
    return (size_t)(top - stacks[which]) - i;
}

/* A live key at or above a random one. */
static void live_key(void)
{
    key = random_word();
    on_its_stack(NEXT);
    key = nexted.key;
}

/* New tests until the store is full, then one out for each one in, and some overwritten: the levels fill with marks. Every
   other round with tickets. */
static void drive(const uint32_t *g)
{
    uint32_t i;
    int which;
    geometry = g;
    on_its_stack(WORDS);
    store = calloc(words, sizeof *store);
    if (store == NULL) {
        exit(2);
    }
    on_its_stack(FORMAT);
    for (i = 0; i < ROUNDS; i++) {
        key = random_word();
        on_its_stack(i % 2 == 0 ? PUT : PUT_TICKETS);
        if (reason == 5) {
            live_key();
            on_its_stack(i % 2 == 0 ? DELETE : DELETE_TICKETS);
        } else if (i % 16 == 0) {
            live_key();
            on_its_stack(PUT);
        }
        for (which = CHECK; i % 64 == 0 && which < PUT; which++) {
            on_its_stack(which);
        }
    }
    free(store);
    store = NULL;
}

int main(void)
{
    static uint32_t empty[1];
    size_t i;
    drive(geometries[0]); /* the loader looks memcpy and memset up at their first call: not measured */
    memset(stacks, PATTERN, sizeof stacks);
    for (i = 0; i < GEOMETRIES; i++) {
        drive(geometries[i]);
    }
    store = empty;
    for (i = 0; i < CALLS; i++) { /* once more, all but words turned down, and how deep the calls have gone so far */
        words = 1;
        printf("%s %lu\n", names[i], (unsigned long)deepest((int)i));
    }
    return merges[0] == 0 || merges[1] == 0 || merges[2] == 0 || compacted == 0;
}
