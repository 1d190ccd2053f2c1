/* example FILE LAT LON: the first zone's description, how the search ended, and every field of the zones that hold the fix.
 * Exit status: 0 answered, 1 refused, 2 not run, or answered with a number that uskelzar.h does not name. examples/slip.rs prints
 * the same. Every number that is read is checked: those of the call, and those of the library's answer that lead to a place in a buffer. */
#define _POSIX_C_SOURCE 200809L
#include "uskelzar.h"
#include <fcntl.h>
#include <stddef.h>
#include <stdint.h>
#include <stdio.h>
#include <stdlib.h>
#include <string.h>
#include <sys/mman.h>
#include <sys/stat.h>
#include <unistd.h>

enum { HITS = USKELZAR_HIT_WORDS * 64, TEXT = 4096 };

/* The lent buffers, as firmware would have them: of fixed size, used again for each call. */
static uint32_t hits[HITS];
static uint8_t names[TEXT];
static uint8_t text[TEXT];
static uint64_t reply[USKELZAR_REPLY_WORDS];
static const struct uskelzar_matches found = {hits, HITS, text, TEXT};

static bool map_file(const char *path, struct uskelzar_file *map)
{
    struct stat about;
    void *start = MAP_FAILED;
    int file = open(path, O_RDONLY);
    if (file < 0)
        return false;
    if (fstat(file, &about) == 0 && about.st_size > 0 && (uintmax_t)about.st_size <= SIZE_MAX) {
        map->file_length = (size_t)about.st_size;
        start = mmap(NULL, map->file_length, PROT_READ, MAP_PRIVATE, file, 0);
    }
    close(file);
    map->file = start;
    return start != MAP_FAILED;
}

/* A decimal number of degrees from -most to most, all of the text; "nan", "inf" and exponents are none. */
static bool read_degrees(const char *word, float most, float *degrees)
{
    char *end;
    *degrees = strtof(word, &end);
    return end != word && *end == '\0' && strspn(word, "+-.0123456789") == strlen(word) && *degrees >= -most && *degrees <= most;
}

static int refused(const char *call, uint8_t number)
{
    printf("%s: refusal %u, cause %llu, detail %llu\n", call, number, (unsigned long long)reply[USKELZAR_REFUSED_CAUSE],
           (unsigned long long)reply[USKELZAR_REFUSED_DETAIL]);
    return 1;
}

static int unknown(const char *what, uint64_t number)
{
    fprintf(stderr, "example: unknown %s %llu\n", what, (unsigned long long)number);
    return 2;
}

/* What an end mark and a kind say; NULL where the header has no such number. */
static const char *end_words(uint64_t end)
{
    switch (end) {
    case USKELZAR_END_WHOLE: return "whole";
    case USKELZAR_END_TABLE: return "stopped at a table entry";
    case USKELZAR_END_BORDER: return "stopped at a border";
    case USKELZAR_END_ORDER: return "stopped early in a table out of order";
    default: return NULL;
    }
}

static const char *kind_words(uint32_t kind)
{
    switch (kind) {
    case USKELZAR_IN_ZONE: return "in zone";
    case USKELZAR_ON_BORDER_VERTEX: return "on border vertex";
    case USKELZAR_ON_BORDER_SEGMENT: return "on border segment";
    default: return NULL;
    }
}

/* The place after a string of a lent text, its length in two bytes before it; NULL where it does not end in the text. */
static const uint8_t *after_string(const uint8_t *at, const uint8_t *end)
{
    if (at == NULL || end - at < 2)
        return NULL;
    ptrdiff_t size = (ptrdiff_t)at[0] * 256 + at[1];
    return end - at - 2 < size ? NULL : at + 2 + size;
}

static void print_string(const uint8_t *at)
{
    printf("%.*s", at[0] * 256 + at[1], (const char *)at + 2);
}

/* The name with an index, from the text of uskelzar_open; NULL where there is none. */
static const uint8_t *name_of(unsigned index)
{
    const uint8_t *at = names;
    while (index-- > 0 && at != NULL)
        at = after_string(at, names + TEXT);
    return after_string(at, names + TEXT) == NULL ? NULL : at;
}

/* A field of a zone, an index and a string, in a line; gives the place after it, or NULL where it does not end in the text. */
static const uint8_t *print_field(const uint8_t *at, uint64_t fields)
{
    const uint8_t *next = at < text + TEXT ? after_string(at + 1, text + TEXT) : NULL;
    if (next == NULL || at[0] >= fields || name_of(at[0]) == NULL)
        return NULL;
    printf("  ");
    print_string(name_of(at[0]));
    printf(": ");
    print_string(at + 1);
    printf("\n");
    return next;
}

static int print_slip(const struct uskelzar_file *map, float lat, float lon)
{
    uint8_t number = uskelzar_file_simple_lookup(map, lat, lon, &found, reply);
    if (number != USKELZAR_ANSWERED)
        return refused("simple lookup", number);
    if (reply[USKELZAR_SIMPLE_LENGTH] > TEXT)
        return unknown("length", reply[USKELZAR_SIMPLE_LENGTH]);
    bool whole = reply[USKELZAR_LOOKUP_END] == USKELZAR_END_WHOLE;
    if (whole && reply[USKELZAR_SIMPLE_DESCRIBED] == 1)
        printf("slip: %.*s\n", (int)reply[USKELZAR_SIMPLE_LENGTH], (const char *)text);
    else
        printf("slip: no zone\n");
    return 0;
}

static int print_zones(const struct uskelzar_file *map, uint64_t fields, float lat, float lon)
{
    uint8_t number = uskelzar_file_lookup(map, lat, lon, true, &found, reply);
    if (number != USKELZAR_ANSWERED)
        return refused("lookup", number);
    const char *end = end_words(reply[USKELZAR_LOOKUP_END]);
    if (end == NULL)
        return unknown("end mark", reply[USKELZAR_LOOKUP_END]);
    if (reply[USKELZAR_LOOKUP_MATCHES] > HITS / USKELZAR_HIT_WORDS)
        return unknown("number of matches", reply[USKELZAR_LOOKUP_MATCHES]);
    uint32_t bits = (uint32_t)reply[USKELZAR_LOOKUP_SAFEZONE];
    float safezone;
    memcpy(&safezone, &bits, sizeof safezone);
    printf("search: %s; safezone %.6f\n", end, safezone);
    const uint8_t *at = text;
    for (uint64_t i = 0; i < reply[USKELZAR_LOOKUP_MATCHES]; i++) {
        uint32_t kind = hits[USKELZAR_HIT_WORDS * i + USKELZAR_HIT_KIND];
        if (kind_words(kind) == NULL)
            return unknown("kind", kind);
        uint32_t place = hits[USKELZAR_HIT_WORDS * i + USKELZAR_HIT_PLACE];
        printf("zone: %s, entry at byte %lu\n", kind_words(kind), (unsigned long)place);
        for (uint64_t j = 0; j < fields; j++) {
            at = print_field(at, fields);
            if (at == NULL)
                return unknown("field", j);
        }
    }
    return 0;
}

static int print_answers(const struct uskelzar_file *map, float lat, float lon)
{
    uint8_t number = uskelzar_open(map->file, map->file_length, names, TEXT, reply);
    if (number != USKELZAR_ANSWERED)
        return refused("open", number);
    uint64_t fields = reply[USKELZAR_OPEN_FIELDS];
    int status = print_slip(map, lat, lon);
    return status != 0 ? status : print_zones(map, fields, lat, lon);
}

int main(int count, char **words)
{
    struct uskelzar_file map;
    float lat, lon;
    if (count != 4) {
        fprintf(stderr, "usage: example FILE LAT LON\n");
        return 2;
    }
    if (!read_degrees(words[2], 90, &lat) || !read_degrees(words[3], 180, &lon)) {
        fprintf(stderr, "example: %s %s are not a latitude from -90 to 90 and a longitude from -180 to 180\n", words[2], words[3]);
        return 2;
    }
    if (!map_file(words[1], &map)) {
        fprintf(stderr, "example: cannot map %s\n", words[1]);
        return 2;
    }
    int status = print_answers(&map, lat, lon);
    munmap((void *)map.file, map.file_length);
    return status;
}
