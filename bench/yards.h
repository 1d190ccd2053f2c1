/* Yards for the counts of the builder: 100 points each, and three fields, of which the first is a yard's own, or with `alike` all are those of the others. */
#include "../include/uskelzar.h"

#include <stdio.h>
#include <stdlib.h>
#include <string.h>

enum { POINTS = 100, NAMES = 3, MOST_VALUE = 32 };

static const char *const front[NAMES + 1] = {"Name", "Use", "Zone", "a notice"};

static void *lend(size_t count, size_t size) {
    void *list = malloc(count * size + 1);
    if (!list) exit(2);
    return list;
}

/* the lists to work in, for so many yards and so many bytes of values */
static inline struct uskelzar_work lend_work(size_t yards, size_t held) {
    size_t starts = USKELZAR_BUILD_STARTS(yards, NAMES), keys = USKELZAR_BUILD_KEYS(yards, NAMES), kept = USKELZAR_BUILD_KEPT(yards, NAMES), places = USKELZAR_BUILD_PLACES(yards);
    struct uskelzar_work work = {lend(starts, 4), starts, lend(keys, 8), keys, lend(keys, 8), keys, lend(kept, 4), kept, lend(held, 1), held, lend(kept, 4), kept, lend(places, 4), places};
    return work;
}

/* the notes of so many adds */
static inline struct uskelzar_notes lend_notes(size_t yards) {
    size_t marks = USKELZAR_NOTE_MARKS(yards, NAMES), chains = USKELZAR_NOTE_CHAINS(yards, NAMES), groups = USKELZAR_NOTE_GROUPS(yards), begins = USKELZAR_NOTE_BEGINS(yards);
    struct uskelzar_notes notes = {lend(marks, 4), marks, lend(chains, 4), chains, lend(groups, 4), groups, lend(begins, 4), begins};
    return notes;
}

/* so many texts, their lengths and their bytes, behind those that are there; how many bytes there are then */
static size_t put_texts(const char *const *text, size_t count, uint32_t *lengths, uint8_t *bytes, size_t at) {
    for (size_t i = 0; i < count; i++) {
        lengths[i] = (uint32_t)strlen(text[i]);
        memcpy(bytes + at, text[i], strlen(text[i]));
        at += strlen(text[i]);
    }
    return at;
}

/* a ring of 100 points, up one side and down the other; the yards stand beside each other, later ones not always further north */
static void put_ring(size_t i, size_t yards, int32_t *lats, int32_t *lons) {
    int32_t south = (int32_t)(i * 7919 % yards) * 40 + 10, west = (int32_t)(i % 64) * 300 + 10;
    for (int k = 0; k < POINTS; k++) {
        int up = k < POINTS / 2;
        lats[k] = south + 3 * (up ? k : POINTS - 1 - k);
        lons[k] = west + (up ? k % 3 : 200 + k % 5);
    }
}

static size_t put_values(size_t i, int alike, uint32_t *lengths, uint8_t *bytes, size_t at) {
    char name[MOST_VALUE], use[MOST_VALUE];
    const char *const text[NAMES] = {name, use, "Asia/Pontianak"};
    sprintf(name, "Yard %u", alike ? 1u : (unsigned)i);
    sprintf(use, "use %u", alike ? 1u : (unsigned)i % 4);
    return put_texts(text, NAMES, lengths, bytes, at);
}
