/* The tests of ingthabor.h: what its guard lets through, what its macros tell, floats, threads, and the stack. */
#define _DEFAULT_SOURCE
#include <pthread.h>
#include <stdio.h>
#include <stdlib.h>
#include <string.h>
#include <sys/mman.h>

#include "ingthabor.h"

enum { THREADS = 4, STACK = 1 << 20, LENT = 0xa5 };

static const char header[] = "nodes=0 mark=0 active=1\n";
static char longest[INGTHABOR_MOST_SESSION];
static size_t longest_length;
static int failed;

static void expect(int holds, const char *what) {
    if (holds) return;
    fprintf(stderr, "calls: not so: %s\n", what);
    failed = 1;
}

/* ---- macros */

static void test_macros(void) {
    expect(INGTHABOR_REFUSAL(0) == 0 && INGTHABOR_REFUSAL(16777215) == 0, "up to 16,777,215 there is no refusal");
    expect(INGTHABOR_REFUSAL(16777216) == 1, "from 16,777,216 there is one");
    expect(INGTHABOR_REFUSAL(9 * 16777216 + 7) == 9 && INGTHABOR_LINE(9 * 16777216 + 7) == 7, "refusal 9 at line 7");
    expect(INGTHABOR_REFUSAL(INGTHABOR_MISUSE) > 15, "misuse is no refusal of the papers");
}

/* ---- the guard */

static void test_nothing(void) {
    char listing[sizeof header];
    memset(listing, LENT, sizeof listing);
    expect(ingthabor_run(NULL, 0, listing, sizeof listing) == 24, "no session at no address lists the header");
    expect(memcmp(listing, header, 24) == 0 && (unsigned char)listing[24] == LENT, "and nothing behind it");
    expect(ingthabor_run("", 0, NULL, 0) == UINT32_C(8) << 24, "a listing of 0 bytes at no address is too short");
    expect(ingthabor_run(NULL, 0, NULL, 0) == UINT32_C(8) << 24, "so it is with no session at no address");
    expect(ingthabor_run(listing, 0, listing, sizeof listing) == 24, "no session overlaps nothing");
}

static void test_misuse(void) {
    char area[64];
    memset(area, LENT, sizeof area);
    expect(ingthabor_run(NULL, 1, area, sizeof area) == INGTHABOR_MISUSE, "a session at no address is misuse");
    expect(ingthabor_run("x", 1, NULL, 1) == INGTHABOR_MISUSE, "a listing at no address is misuse");
    expect(ingthabor_run(area, SIZE_MAX, NULL, 0) == INGTHABOR_MISUSE, "a session longer than memory is misuse");
    expect(ingthabor_run(NULL, 0, area, SIZE_MAX) == INGTHABOR_MISUSE, "a listing longer than memory is misuse");
    for (size_t i = 0; i < sizeof area; i++) expect((unsigned char)area[i] == LENT, "misuse writes nothing");
}

/* A session of 9 bytes at `at`, a listing of 24 at 20, in one area. */
static uint32_t beside(size_t at) {
    static char area[64];
    memset(area, LENT, sizeof area);
    memcpy(area + at, "mark=set\n", 9);
    return ingthabor_run(area + at, 9, area + 20, 24);
}

static void test_overlap(void) {
    expect(beside(11) == 24, "a session may end where its listing begins");
    expect(beside(44) == 24, "a listing may end where its session begins");
    expect(beside(12) == INGTHABOR_MISUSE, "the session's last byte may not be in the listing");
    expect(beside(43) == INGTHABOR_MISUSE, "the listing's last byte may not be in the session");
    expect(beside(20) == INGTHABOR_MISUSE && beside(25) == INGTHABOR_MISUSE, "nor all of the session in the listing");
}

/* ---- floats */

#ifdef __x86_64__
/* The half of 3 times the least subnormal is twice that where it is rounded to nearest, and 0 where it is flushed. */
static uint32_t half(uint32_t (*call)(const uint8_t *, size_t, uint8_t *, size_t), char *listing) {
    static const uint8_t session[] = "op=3 left=c0000000000000003 right=c3fe0000000000000\n";
    memset(listing, LENT, 128);
    return call(session, sizeof session - 1, (uint8_t *)listing, 128);
}

static uint32_t guarded(const uint8_t *session, size_t session_length, uint8_t *listing, size_t listing_length) {
    return ingthabor_run(session, session_length, listing, listing_length);
}

static void test_floats(void) {
    static const unsigned int settings[] = {0x1f80 | 0x8040, 0x1f80 | 0x2000, 0x1f80 | 0x6000};
    char wanted[128], bare[128], listing[128];
    expect(half(ingthabor_session, wanted) == 73, "a product is listed");
    expect(memcmp(wanted + 30, " val=0000000000000002 ", 22) == 0, "and rounded to nearest, with subnormals");
    for (size_t i = 0; i < sizeof settings / sizeof *settings; i++) {
        _mm_setcsr(settings[i]);
        uint32_t bare_number = half(ingthabor_session, bare), number = half(guarded, listing);
        unsigned int after = _mm_getcsr();
        _mm_setcsr(0x1f80);
        expect(bare_number == 73 && memcmp(bare, wanted, 128) != 0, "a bare call goes by what the caller has set");
        expect(number == 73 && memcmp(listing, wanted, 128) == 0, "a guarded one does not");
        expect((after & ~0x3fu) == settings[i], "and what was set is set again");
    }
}
#else
static void test_floats(void) {}
#endif

/* ---- threads and the stack */

/* The longest listing, after a line of each kind. */
static void make_longest(void) {
    strcpy(longest, "leaf=4008000000000000\nop=3 left=n0 right=n0\nop=10 left=n1\nmark=set\npass=tomark root=2\n");
    strcat(longest, "pass=tostart root=2\npass=back root=2\npass=rest\nclear=adj\nmark=reset\nrewind=mark\n");
    strcat(longest, "rewind=init\nop=7 left=c4008000000000000\n");
    for (int i = 1; i < INGTHABOR_MOST_NODES; i++) {
        strcat(longest, i % 2 ? "op=4 left=n0 right=n0\n" : "op=10 left=n0\n");
    }
    strcat(longest, "pass=back root=1023\nmark=set\npass=rest\n");
    longest_length = strlen(longest);
}

/* Runs the longest session in an area of its own, which it hands back. */
static void *run_longest(void *listing) {
    uint32_t number = INGTHABOR_MOST_LISTING;
    for (int i = 0; i < 20 && number == INGTHABOR_MOST_LISTING; i++) {
        number = ingthabor_run(longest, longest_length, listing, INGTHABOR_MOST_LISTING);
    }
    return number == INGTHABOR_MOST_LISTING ? listing : NULL;
}

static void test_threads(void) {
    static char listings[THREADS][INGTHABOR_MOST_LISTING];
    pthread_t threads[THREADS];
    void *listing;
    for (int i = 0; i < THREADS; i++) {
        if (pthread_create(&threads[i], NULL, run_longest, listings[i]) != 0) abort();
    }
    for (int i = 0; i < THREADS; i++) {
        pthread_join(threads[i], &listing);
        expect(listing == listings[i], "each of some threads gets the longest listing");
        expect(memcmp(listings[0], listings[i], sizeof listings[i]) == 0, "and all of them the same");
    }
}

/* What a thread takes of a stack that was full of bytes a5: its own frames, and those of the call. */
static void test_stack(void) {
    static char listing[INGTHABOR_MOST_LISTING];
    unsigned char *stack = mmap(NULL, STACK, PROT_READ | PROT_WRITE, MAP_PRIVATE | MAP_ANONYMOUS, -1, 0);
    pthread_attr_t attributes;
    pthread_t thread;
    if (stack == MAP_FAILED) abort();
    memset(stack, LENT, STACK);
    if (pthread_attr_init(&attributes) != 0 || pthread_attr_setstack(&attributes, stack, STACK) != 0) abort();
    if (pthread_create(&thread, &attributes, run_longest, listing) != 0) abort();
    pthread_join(thread, NULL);
    size_t untouched = 0;
    while (untouched < STACK && stack[untouched] == LENT) untouched++;
    printf("calls: a session takes %zu bytes of the stack at most, with a thread's own\n", STACK - untouched);
    expect(untouched > 0 && STACK - untouched <= INGTHABOR_STACK, "a call takes at most INGTHABOR_STACK bytes");
}

int main(void) {
    test_macros();
    test_nothing();
    test_misuse();
    test_overlap();
    test_floats();
    make_longest();
    test_threads();
    test_stack();
    printf("calls: %s\n", failed ? "FAILED" : "passed");
    return failed;
}
