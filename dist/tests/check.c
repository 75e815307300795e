/*
 * check.c: tests the library on the machine at which it is to run, with a C compiler alone: README has the command.
 *
 *     check SCRIPTS [PART..]
 *
 *     scripts   plays each script of the table SCRIPTS, and compares its transcript and its fault line: at a card and a
 *               clock, at a card with timers of its own, and with lapd_exchange for its pulls
 *     facing    two facing cards: contents go both ways, while frames are lost (wire.c of the examples)
 *     wrong     wrong calls answer what lapd.h says, and change nothing
 *     null      so do null pointers, each of each call's
 *     first     first.c of the examples says what it should
 *
 * Without a PART all run. Status 0 if all passed, 1 if not, 2 for wrong words; the last line says how many did.
 */
#include "check.h"

#include <stdarg.h>
#include <stdio.h>
#include <string.h>

static unsigned passed, failed;

void wants(bool is, const char *what, ...) {
    passed += is;
    failed += !is;
    if (is)
        return;
    va_list words;
    va_start(words, what);
    fputs("check: ", stdout);
    vprintf(what, words);
    putchar('\n');
    va_end(words);
}

/* Whether a part was asked for. */
static bool is_asked(const char *part, int words, char **argv) {
    bool is = words == 2;
    for (int i = 2; i < words; i++)
        is |= strcmp(argv[i], part) == 0;
    return is;
}

static const char usage[] = "usage: check SCRIPTS [scripts] [facing] [wrong] [null] [first]\n"
                            "  SCRIPTS   the table of scripts, tests/scripts.txt\n";

static bool is_part(const char *word) {
    static const char *const parts[] = {"scripts", "facing", "wrong", "null", "first"};
    for (size_t i = 0; i < sizeof parts / sizeof *parts; i++)
        if (strcmp(word, parts[i]) == 0)
            return true;
    return false;
}

/* The status of words that are no work; 0 for others. */
static int wrong_words(int words, char **argv) {
    bool is_good = words >= 2;
    for (int i = 2; i < words; i++)
        is_good &= is_part(argv[i]);
    if (!is_good)
        fputs(usage, stderr);
    return is_good ? 0 : 2;
}

int main(int words, char **argv) {
    if (words == 2 && strcmp(argv[1], "--help") == 0)
        return fputs(usage, stdout) == EOF;
    int status = wrong_words(words, argv);
    if (status != 0)
        return status;
    if (is_asked("scripts", words, argv) && !check_scripts(argv[1])) {
        fprintf(stderr, "check: %s can't be read, or is no table of scripts\n", argv[1]);
        return 2;
    }
    if (is_asked("facing", words, argv))
        check_facing();
    if (is_asked("wrong", words, argv))
        check_wrong();
    if (is_asked("null", words, argv))
        check_null();
    if (is_asked("first", words, argv))
        check_first();
    printf("check: %u passed, %u failed\n", passed, failed);
    return failed > 0;
}
