/*
 * Runs the cases of damage. Of each it reads `case LENGTH ROOM`, a line feed, LENGTH bytes of a session, a line feed.
 * It writes the number that the session gives, how many bytes of the output there are up to the last one that changed,
 * a line feed, these bytes, a line feed.
 *
 * Either area ends where no page may be touched, and the session's may not be written. So a byte read or written past
 * an end, or written in the session, ends this program by a signal, and the case has no answer.
 */
#define _DEFAULT_SOURCE
#include <stdio.h>
#include <stdlib.h>
#include <string.h>
#include <sys/mman.h>

#include "ingthabor.h"

enum { PAGE = 65536, AREA = 4 * PAGE, BEFORE = 64, LENT = 0xa5 };

static void fail(const char *what) {
    fprintf(stderr, "answer: %s\n", what);
    exit(2);
}

/* The end of an area of AREA bytes; the page there may not be touched. */
static uint8_t *end_of_new_area(void) {
    uint8_t *area = mmap(NULL, AREA + PAGE, PROT_READ | PROT_WRITE, MAP_PRIVATE | MAP_ANONYMOUS, -1, 0);
    if (area == MAP_FAILED || mprotect(area + AREA, PAGE, PROT_NONE) != 0) fail("no memory");
    return area + AREA;
}

static void protect_session(uint8_t *end, int how) {
    if (mprotect(end - AREA, AREA, how) != 0) fail("the session cannot be protected");
}

static void run(const uint8_t *session, size_t length, uint8_t *output, size_t room) {
    memset(output - BEFORE, LENT, BEFORE + room);
    uint32_t number = ingthabor_session(session, length, output, room);
    for (size_t i = 1; i <= BEFORE; i++) {
        if (output[-(ptrdiff_t)i] != LENT) fail("a byte before the output changed");
    }
    size_t changed = room;
    while (changed > 0 && output[changed - 1] == LENT) changed--;
    printf("%lu %zu\n", (unsigned long)number, changed);
    fwrite(output, 1, changed, stdout);
    putchar('\n');
    /* so that a case which ends this program is the first without an answer */
    if (fflush(stdout) != 0) fail("the answer cannot be written");
}

int main(void) {
    uint8_t *session_end = end_of_new_area(), *output_end = end_of_new_area();
    size_t length, room;
    while (scanf("case %zu %zu", &length, &room) == 2) {
        if (length > AREA || room > AREA - BEFORE) fail("too long a case");
        uint8_t *session = session_end - length;
        protect_session(session_end, PROT_READ | PROT_WRITE);
        if (getchar() != '\n' || fread(session, 1, length, stdin) != length || getchar() != '\n') fail("no case");
        protect_session(session_end, PROT_READ);
        run(session, length, output_end - room, room);
    }
    if (!feof(stdin)) fail("no case");
    return 0;
}
