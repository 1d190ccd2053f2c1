/* example-yards: a file of four yards, by a builder that holds them, to standard output; what it comes to after each yard, to standard error.
 * Exit status: 0 written, 1 refused or not written. examples/yards.rs writes the same file. */
#include "uskelzar.h"
#include <stdio.h>
#include <string.h>

enum { NAMES = 3, MOST = 8, CORNERS = 4, ROOM = 4096, TEXTS = 1024 };

/* Points on a grid of precision 16: a step is 90 / 2^15 degrees of latitude, 180 / 2^15 of longitude. */
struct drawn {
    int32_t lats[CORNERS], lons[CORNERS];
    const char *values[NAMES];
};

static const char *const front[NAMES + 1] = {"Name", "TimezoneIdPrefix", "TimezoneId", "drawn by hand"};

/* The third turns the other way and has the second one's values: it is a hole in it. */
static const struct drawn drawn[] = {
    {{2, 12, 12, 2}, {19900, 19900, 19910, 19910}, {"Gate", "Asia/", "Pontianak"}},
    {{12, 42, 42, 12}, {19900, 19900, 19940, 19940}, {"Tanks", "Asia/", "Pontianak"}},
    {{22, 22, 32, 32}, {19910, 19930, 19930, 19910}, {"Tanks", "Asia/", "Pontianak"}},
    {{-20, -4, -4, -20}, {19940, 19940, 19980, 19980}, {"Berths", "Asia/", "Jakarta"}},
};

/* The builder's own, the same for each call. */
static uint64_t state[USKELZAR_STATE_WORDS];
static int32_t boxes[USKELZAR_HELD_BOXES(MOST)];
static uint32_t borders[USKELZAR_HELD_BORDERS(MOST)], lengths[USKELZAR_HELD_LENGTHS(MOST, NAMES)];
static uint8_t texts[TEXTS], bytes[ROOM];
static const struct uskelzar_builder builder = {
    state, boxes, USKELZAR_HELD_BOXES(MOST), borders, USKELZAR_HELD_BORDERS(MOST), lengths, USKELZAR_HELD_LENGTHS(MOST, NAMES), texts, TEXTS, bytes, ROOM};

/* Its notes, the same for each add. */
static uint32_t marks[USKELZAR_NOTE_MARKS(MOST, NAMES)], chains[USKELZAR_NOTE_CHAINS(MOST, NAMES)], groups[USKELZAR_NOTE_GROUPS(MOST)], begins[USKELZAR_NOTE_BEGINS(MOST)];
static const struct uskelzar_notes notes = {
    marks, USKELZAR_NOTE_MARKS(MOST, NAMES), chains, USKELZAR_NOTE_CHAINS(MOST, NAMES), groups, USKELZAR_NOTE_GROUPS(MOST), begins, USKELZAR_NOTE_BEGINS(MOST)};

/* What it works in. */
static uint32_t starts[USKELZAR_BUILD_STARTS(MOST, NAMES)], kept[USKELZAR_BUILD_KEPT(MOST, NAMES)], words[USKELZAR_BUILD_KEPT(MOST, NAMES)], places[USKELZAR_BUILD_PLACES(MOST)];
static uint64_t keys[USKELZAR_BUILD_KEYS(MOST, NAMES)], spare[USKELZAR_BUILD_KEYS(MOST, NAMES)];
static uint8_t held[TEXTS], out[ROOM];
static const struct uskelzar_work work = {
    starts, USKELZAR_BUILD_STARTS(MOST, NAMES), keys, USKELZAR_BUILD_KEYS(MOST, NAMES), spare, USKELZAR_BUILD_KEYS(MOST, NAMES), kept, USKELZAR_BUILD_KEPT(MOST, NAMES),
    held, TEXTS, words, USKELZAR_BUILD_KEPT(MOST, NAMES), places, USKELZAR_BUILD_PLACES(MOST)};
static const struct uskelzar_output output = {out, ROOM};

static uint64_t reply[USKELZAR_REPLY_WORDS];

/* The lengths of some texts, and their bytes one behind the other; how many bytes these are. */
static size_t put_texts(const char *const *from, size_t count, uint32_t *sizes, uint8_t *to)
{
    size_t at = 0;
    for (size_t i = 0; i < count; i++) {
        size_t size = strlen(from[i]);
        memcpy(to + at, from[i], size);
        sizes[i] = (uint32_t)size;
        at += size;
    }
    return at;
}

static uint8_t begin(void)
{
    uint32_t sizes[NAMES + 1];
    uint8_t strings[256];
    struct uskelzar_names names = {sizes, NAMES + 1, strings, put_texts(front, NAMES + 1, sizes, strings)};
    return uskelzar_builder_begin(&builder, 'T', 1, 16, NAMES, ROOM, &names, reply);
}

static uint8_t add(const struct drawn *each)
{
    uint32_t sizes[NAMES];
    uint8_t values[256];
    /* no pieces are borrowed: any pointer that is not null will do */
    struct uskelzar_border border = {each->lats, CORNERS, each->lons, CORNERS, sizes, 0};
    struct uskelzar_yard yard = {border, sizes, NAMES, values, put_texts(each->values, NAMES, sizes, values)};
    return uskelzar_builder_add(&builder, &yard, &notes, &work, &output, reply);
}

static int refused(const char *call, uint8_t number)
{
    fprintf(stderr, "example-yards: %s: refusal %u, cause %llu, detail %llu\n", call, number, (unsigned long long)reply[USKELZAR_REFUSED_CAUSE],
            (unsigned long long)reply[USKELZAR_REFUSED_DETAIL]);
    return 1;
}

int main(void)
{
    uint8_t number = begin();
    if (number != USKELZAR_ANSWERED)
        return refused("begin", number);
    for (size_t i = 0; i < sizeof drawn / sizeof drawn[0]; i++) {
        number = add(&drawn[i]);
        if (number != USKELZAR_ANSWERED)
            return refused("add", number);
        fprintf(stderr, "%llu yards: table %llu, metadata %llu, data %llu bytes\n", (unsigned long long)reply[USKELZAR_TOTALS_YARDS],
                (unsigned long long)reply[USKELZAR_TOTALS_TABLE], (unsigned long long)reply[USKELZAR_TOTALS_METADATA], (unsigned long long)reply[USKELZAR_TOTALS_DATA]);
    }
    number = uskelzar_builder_finish(&builder, &work, &output, reply);
    if (number != USKELZAR_ANSWERED)
        return refused("finish", number);
    size_t length = (size_t)reply[USKELZAR_FINISH_LENGTH];
    return fwrite(out, 1, length, stdout) == length && fflush(stdout) == 0 ? 0 : 1;
}
