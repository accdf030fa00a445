/*
 * Runs a session from a file or from standard input and prints its listing: ingthabor-session [FILE]. Where the session
 * is refused it shows the line and says in words what is wrong.
 */
#include <ctype.h>
#include <errno.h>
#include <stdbool.h>
#include <stdio.h>
#include <stdlib.h>
#include <string.h>

#include "ingthabor.h"

enum { DONE = 0, REFUSED = 1, TROUBLE = 2 };
enum { MOST_SHOWN = 80 };

static const char usage[] =
    "usage: ingthabor-session [FILE]\n"
    "\n"
    "Runs the session in FILE, or in standard input where FILE is - or none is named, and prints its listing.\n"
    "Status: 0 where it was run, 1 where it was refused, 2 for wrong usage or what cannot be read or written.\n";

static const char decimal[] = "0123456789";
static const char hex[] = "0123456789abcdef";
static const char upper_case[] = "ABCDEFGHIJKLMNOPQRSTUVWXYZ";

/* A byte more than a session may have, so that the call itself tells an overlong one; and a 0 behind the text. */
static char session[INGTHABOR_MOST_SESSION + 2];
static char listing[INGTHABOR_MOST_LISTING];

/* ---- a line */

/* Behind its last byte stands its line feed, or the 0 behind the text. */
struct line {
    const char *text;
    size_t length;
    uint32_t number;
    bool has_line_feed;
};

static struct line find_line(uint32_t number, size_t session_length) {
    const char *text = session, *end = session + session_length, *feed = NULL;
    for (uint32_t at = 1; at <= number; at++) {
        text = feed == NULL ? text : feed + 1;
        feed = memchr(text, '\n', (size_t)(end - text));
        if (feed == NULL) break;
    }
    return (struct line){text, (size_t)((feed == NULL ? end : feed) - text), number, feed != NULL};
}

static bool has_byte(struct line line, char byte) { return memchr(line.text, byte, line.length) != NULL; }

/* What stands behind the first `word` of the line, or NULL. */
static const char *after(struct line line, const char *word) {
    size_t length = strlen(word);
    for (size_t i = 0; i + length <= line.length; i++) {
        if (memcmp(line.text + i, word, length) == 0) return line.text + i + length;
    }
    return NULL;
}

static bool begins(struct line line, const char *word) {
    size_t length = strlen(word);
    return length <= line.length && memcmp(line.text, word, length) == 0;
}

/* ---- hints: what is wrong with a malformed line, or NULL; each is asked where those before it had none */

static const char *hint_on_bytes(struct line line) {
    if (line.number == 1 && begins(line, "\xef\xbb\xbf")) return "a byte order mark: save as plain text, without one";
    if (has_byte(line, '\0')) return "a NUL byte: save as plain text, in ASCII";
    if (has_byte(line, '\r')) return "a carriage return: save with line feeds alone";
    if (has_byte(line, '\t')) return "a tab: one space stands between two words";
    for (size_t i = 0; i < line.length; i++) {
        if (line.text[i] < ' ' || line.text[i] > '~') return "a byte that is not printable ASCII";
    }
    if (strcspn(line.text, upper_case) < line.length) return "an upper-case letter: all letters are in lower case";
    return NULL;
}

static const char *hint_on_ends(struct line line) {
    if (line.length == 0) return "an empty line";
    if (line.text[0] == '#') return "a session has no comments";
    if (line.text[0] == ' ') return "a space at the beginning";
    if (line.text[line.length - 1] == ' ') return "a space at the end";
    if (after(line, "  ")) return "more than one space between two words";
    if (!line.has_line_feed) return "no line feed at its end: the last line has one too";
    return NULL;
}

static bool has_leading_zero(struct line line) {
    const char *words[] = {"op=", "left=n", "right=n", "root="};
    for (size_t i = 0; i < sizeof words / sizeof *words; i++) {
        const char *number = after(line, words[i]);
        if (number && number[0] == '0' && strspn(number, decimal) > 1) return true;
    }
    return false;
}

/* The operation of a line `op=`, or -1 where it is none of a session. */
static int operation_of(const char *number) {
    size_t digits = strspn(number, decimal);
    if (digits == 2 && memcmp(number, "10", 2) == 0) return 10;
    return digits == 1 && number[0] >= '1' && number[0] <= '7' ? number[0] - '0' : -1;
}

static const char *hint_on_operation(struct line line) {
    if (has_leading_zero(line)) return "a leading zero";
    if (!begins(line, "op=")) return NULL;
    const char *number = line.text + strlen("op=");
    bool one_digit = strspn(number, decimal) == 1;
    if (one_digit && number[0] == '0') return "no operation 0 here: a leaf is leaf= and 16 hex digits";
    if (one_digit && number[0] >= '8') return "operations 8 and 9 are supplied by a program and not by a session";
    if (operation_of(number) < 0) return "no such operation: they are 1 to 7 and 10";
    if (operation_of(number) < 7 && !after(line, " right=")) return "this operation takes left= and right=";
    if (operation_of(number) >= 7 && after(line, " right=")) return "this operation takes left= alone";
    return NULL;
}

static const char *hint_on_numbers(struct line line) {
    const char *operands[] = {after(line, "left="), after(line, "right=")};
    const char *numbers[] = {after(line, "leaf="), after(line, "left=c"), after(line, "right=c")};
    const char *indexes[] = {after(line, "left=n"), after(line, "right=n"), after(line, "root=")};
    if (after(line, "root=n")) return "a root is an index alone, without n";
    for (size_t i = 0; i < 2; i++) {
        if (operands[i] && operands[i][0] != 'n' && operands[i][0] != 'c')
            return "an operand is n and an index, or c and 16 hex digits";
    }
    for (size_t i = 0; i < 3; i++) {
        if (numbers[i] && strspn(numbers[i], hex) != 16) return "a number has 16 hex digits, the bits of a double";
        if (indexes[i] && (strspn(indexes[i], decimal) == 0 || strspn(indexes[i], decimal) > 5))
            return "an index has 1 to 5 decimal digits";
    }
    return NULL;
}

static const char *hint_on_form(struct line line) {
    if (begins(line, "leaf=")) return "expected leaf= and 16 hex digits";
    if (begins(line, "op=")) return "expected op= left= right=, or op= left= for operations 7 and 10";
    if (begins(line, "mark=")) return "expected mark=set or mark=reset";
    if (begins(line, "rewind=")) return "expected rewind=mark or rewind=init";
    if (begins(line, "clear=")) return "expected clear=adj";
    if (begins(line, "pass=")) return "expected pass=back, tomark or tostart and root=, or pass=rest";
    return "a line begins with leaf=, op=, mark=, rewind=, clear= or pass=";
}

static const char *hint_on(struct line line) {
    const char *hint = hint_on_bytes(line);
    if (!hint) hint = hint_on_ends(line);
    if (!hint) hint = hint_on_operation(line);
    if (!hint) hint = hint_on_numbers(line);
    return hint ? hint : hint_on_form(line);
}

/* ---- what is told */

static void tell_name(const char *name) {
    for (; *name != '\0'; name++) fputc(iscntrl((unsigned char)*name) ? '?' : *name, stderr);
    fputs(": ", stderr);
}

static void tell_byte(char byte) {
    switch (byte) {
    case '\r': fputs("\\r", stderr); break;
    case '\t': fputs("\\t", stderr); break;
    case '\\': fputs("\\\\", stderr); break;
    default: fprintf(stderr, byte >= ' ' && byte <= '~' ? "%c" : "\\x%02x", (unsigned char)byte);
    }
}

static void tell_text(struct line line) {
    if (line.length == 0) return;
    fputs("    ", stderr);
    for (size_t i = 0; i < line.length && i < MOST_SHOWN; i++) tell_byte(line.text[i]);
    fputs(line.length > MOST_SHOWN ? " ..\n" : "\n", stderr);
}

/* How many nodes the tape has where a line begins: what the lines before it list, which were all run. */
static unsigned long nodes_before(struct line line) {
    uint32_t number = ingthabor_run(session, (size_t)(line.text - session), listing, sizeof listing);
    return INGTHABOR_REFUSAL(number) == 0 ? strtoul(listing + strlen("nodes="), NULL, 10) : 0;
}

/* Which index of a line is not below the length, the left one first. The line is well-formed. */
static void tell_stale(struct line line) {
    const char *words[] = {"left=n", "right=n", "root="};
    unsigned long nodes = nodes_before(line);
    for (size_t i = 0; i < sizeof words / sizeof *words; i++) {
        const char *index = after(line, words[i]);
        if (!index || strtoul(index, NULL, 10) < nodes) continue;
        fprintf(stderr, "%s%lu, where the tape has ", i < 2 ? "n" : "root ", strtoul(index, NULL, 10));
        break;
    }
    if (nodes == 0) fputs("no node\n", stderr);
    if (nodes == 1) fputs("1 node, n0\n", stderr);
    if (nodes > 1) fprintf(stderr, "%lu nodes, n0 to n%lu\n", nodes, nodes - 1);
}

static void tell_reason(struct line line, uint32_t refusal) {
    if (refusal == INGTHABOR_STALE) {
        fputs(" (no such node): ", stderr);
        tell_stale(line);
    } else if (refusal == INGTHABOR_FULL) {
        fprintf(stderr, " (full tape): it has room for %d nodes: rewind before recording more\n", INGTHABOR_MOST_NODES);
    } else if (refusal == INGTHABOR_MALFORMED && line.number == 0) {
        fprintf(stderr, " (overlong session): more than %d bytes\n", INGTHABOR_MOST_SESSION);
    } else if (refusal == INGTHABOR_MALFORMED) {
        fprintf(stderr, " (malformed line): %s\n", hint_on(line));
    } else {
        fputs("\n", stderr);
    }
}

static void tell_refusal(const char *name, uint32_t number, size_t session_length) {
    struct line line = find_line(INGTHABOR_LINE(number), session_length);
    tell_name(name);
    if (line.number > 0) fprintf(stderr, "line %lu: ", (unsigned long)line.number);
    fprintf(stderr, "refused %lu", (unsigned long)INGTHABOR_REFUSAL(number));
    tell_reason(line, INGTHABOR_REFUSAL(number));
    if (line.number > 0) tell_text(line);
}

/* ---- the program */

static int trouble(const char *what) {
    const char *why = strerror(errno);
    tell_name("ingthabor-session");
    tell_name(what);
    fprintf(stderr, "%s\n", why);
    return TROUBLE;
}

static int print(const char *text, size_t length) {
    if (fwrite(text, 1, length, stdout) < length || fflush(stdout) != 0) return trouble("standard output");
    return DONE;
}

static int run(const char *name, FILE *file) {
    size_t length = fread(session, 1, sizeof session - 1, file);
    if (ferror(file)) return trouble(name);
    uint32_t number = ingthabor_run(session, length, listing, sizeof listing);
    if (INGTHABOR_REFUSAL(number) == 0) return print(listing, number);
    tell_refusal(name, number, length);
    return REFUSED;
}

static int run_file(const char *name) {
    if (strcmp(name, "-") == 0) return run("standard input", stdin);
    FILE *file = fopen(name, "rb");
    if (file == NULL) return trouble(name);
    int status = run(name, file);
    fclose(file);
    return status;
}

int main(int argc, char **argv) {
    const char *name = argc > 1 ? argv[1] : "-";
    if (argc == 2 && strcmp(name, "--help") == 0) return print(usage, strlen(usage));
    if (argc == 3 && strcmp(name, "--") == 0) return run_file(argv[2]);
    if (argc > 2 || (name[0] == '-' && name[1] != '\0')) {
        fputs(usage, stderr);
        return TROUBLE;
    }
    return run_file(name);
}
