/*
 * texts.c: what octets say. Each line of standard input has octets as digits, or `-`, and after a space who sent them, 0 or 1;
 * for each its text is printed, which is asked for with all room, with just enough, and with too little; and what it says in fields
 * is what the text says. For tests alone.
 */
#include <stdio.h>
#include <stdlib.h>
#include <string.h>

#include "lapd.h"

enum { LINE = 4096, ROOM = 2176 };

static int failed;

static void wants(bool is, const char *what, const char *line) {
    if (!is) {
        failed = 1;
        fprintf(stderr, "texts: %s: %s\n", what, line);
    }
}

static size_t octets_of(const char *digits, uint8_t *octets) {
    size_t count = 0;
    for (unsigned octet; sscanf(digits + 2 * count, "%2X", &octet) == 1; count++)
        octets[count] = (uint8_t)octet;
    return count;
}

/* With less room than it takes nothing is written, and with just so much what follows stays. */
static void in_little_room(const uint8_t *octets, size_t count, uint16_t side, const char *whole, const char *line) {
    char text[ROOM], was[ROOM];
    size_t octets_of_text = strlen(whole) + 1;
    memset(was, '#', sizeof was);
    memcpy(text, was, sizeof text);
    wants(lapd_frame_text(octets, count, side, text, octets_of_text - 1) == LAPD_WRONG_LENGTH && memcmp(text, was, sizeof text) == 0,
          "an octet too little", line);
    wants(lapd_frame_text(octets, count, side, text, 0) == LAPD_WRONG_LENGTH && memcmp(text, was, sizeof text) == 0, "no room", line);
    wants(lapd_frame_text(octets, count, 3, text, sizeof text) == LAPD_BAD_SIDE && memcmp(text, was, sizeof text) == 0, "no side", line);
    wants(lapd_frame_text(octets, count, side, text, octets_of_text) == LAPD_OK && strcmp(text, whole) == 0
              && memcmp(text + octets_of_text, was, sizeof text - octets_of_text) == 0, "just enough room", line);
    wants(side != LAPD_USER || (lapd_frame_text(octets, count, LAPD_TERMINAL, text, sizeof text) == LAPD_OK && strcmp(text, whole) == 0),
          "a terminal says something else", line);
    wants(octets_of_text <= 72 + 2 * count, "72 and twice the length are too little", line);
    wants(count > LAPD_MOST_FRAME || octets_of_text <= LAPD_MOST_TEXT, "LAPD_MOST_TEXT is too little", line);
}

/* The text that these fields of a frame have, up to its information. */
static void put_fields(const lapd_fields *of, char *to, size_t room) {
    static const char *const kinds[] = {"", "i", "rr", "rnr", "rej", "sabme", "disc", "ui", "ua", "dm", "frmr", "xid"};
    char ns[16] = "", nr[16] = "";
    if (of->kind == LAPD_KIND_I)
        snprintf(ns, sizeof ns, " ns %u", of->ns);
    if (of->kind <= LAPD_KIND_REJ)
        snprintf(nr, sizeof nr, " nr %u", of->nr);
    snprintf(to, room, "sapi %u tei %u %s %s%s%s %c %u info ", of->sapi, of->tei, of->command ? "command" : "response", kinds[of->kind],
             ns, nr, of->command ? 'p' : 'f', of->bit);
}

/* A frame says the same in fields, and what is none is told by the same fault; with no number where it has none. */
static void in_fields(const uint8_t *octets, size_t count, uint16_t side, const char *whole, const char *line) {
    lapd_fields fields, was;
    char text[ROOM];
    memset(&was, '#', sizeof was);
    fields = was;
    uint32_t status = lapd_frame_read(octets, count, side, &fields);
    wants(lapd_frame_read(octets, count, 3, &was) == LAPD_BAD_SIDE, "no side of fields", line);
    if (status != LAPD_OK) {
        wants(strcmp(whole, lapd_status_text(status)) == 0 && memcmp(&fields, &was, sizeof was) == 0, "another fault of fields", line);
        return;
    }
    put_fields(&fields, text, sizeof text);
    wants(strncmp(whole, text, strlen(text)) == 0 && fields.start + (size_t)fields.info == count && (fields.start == 3 || fields.start == 4)
              && fields.bit < 2 && fields.command < 2, "other fields", line);
    wants((fields.kind == LAPD_KIND_I || fields.ns == 0) && (fields.kind <= LAPD_KIND_REJ || fields.nr == 0), "a number that it has not", line);
}

int main(void) {
    static char line[LINE], text[ROOM];
    static uint8_t octets[LINE];
    while (fgets(line, sizeof line, stdin) != NULL) {
        char *digits = strtok(line, " \n"), *side = strtok(NULL, " \n");
        size_t count = octets_of(digits, octets);
        uint16_t from = (uint16_t)atoi(side);
        uint32_t status = lapd_frame_text(octets, count, from, text, sizeof text);
        wants(status == (count > 1028 ? LAPD_WRONG_LENGTH : LAPD_OK), "another status", digits);
        if (status == LAPD_OK) {
            puts(text);
            in_little_room(octets, count, from, text, digits);
            in_fields(octets, count, from, text, digits);
        } else {
            lapd_fields fields;
            wants(lapd_frame_read(octets, count, from, &fields) == LAPD_WRONG_LENGTH, "fields of too many octets", digits);
            puts("frame: too long");
        }
    }
    return failed;
}
