/* example-stamp MAP ZONES REQUEST: the slip that a request asks for, by a map of at most 4 MiB and a bundle of at most 1 MiB; or why there is none: number, cause, detail.
 * Exit status: 0 stamped, 1 not stamped, 2 not run. */
#include "uskelzar.h"
#include <stdio.h>
#include <string.h>

static uint8_t map[4 << 20], zones[1 << 20], text[16384], out[4096];
static uint32_t hits[1024 * USKELZAR_HIT_WORDS];

/* All of a file; 0 where it can't be read, or is too long. */
static size_t read_whole(const char *path, uint8_t *room, size_t most)
{
    FILE *file = fopen(path, "rb");
    size_t length = file != NULL ? fread(room, 1, most, file) : 0;
    bool whole = file != NULL && !ferror(file) && fgetc(file) == EOF;
    if (file != NULL)
        fclose(file);
    return whole ? length : 0;
}

int main(int count, char **words)
{
    uint64_t reply[USKELZAR_REPLY_WORDS];
    struct uskelzar_printer printer = {map, 0, zones, 0};
    const struct uskelzar_matches found = {hits, sizeof hits / sizeof *hits, text, sizeof text};
    const struct uskelzar_output line = {out, sizeof out};
    if (count == 4) {
        printer.map_length = read_whole(words[1], map, sizeof map);
        printer.zones_length = read_whole(words[2], zones, sizeof zones);
    }
    if (printer.map_length == 0 || printer.zones_length == 0) {
        fprintf(stderr, "usage: example-stamp MAP ZONES REQUEST: a map of at most 4 MiB, and a bundle of at most 1 MiB (depot bundle)\n");
        return 2;
    }
    uint8_t number = uskelzar_printer_slip(&printer, (const uint8_t *)words[3], strlen(words[3]), &found, &line, reply);
    if (number == USKELZAR_ANSWERED)
        printf("%.*s\n", (int)reply[USKELZAR_SLIP_LENGTH], (const char *)out);
    else
        printf("not stamped: %u %u %llu\n", number, (unsigned)reply[USKELZAR_REFUSED_CAUSE], (unsigned long long)reply[USKELZAR_REFUSED_DETAIL]);
    return number == USKELZAR_ANSWERED ? 0 : 1;
}
