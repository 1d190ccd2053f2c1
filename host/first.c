/* first: the zone that holds Berlin, by a file of at most 64 KiB on standard input; printed only where the search was whole. README.md shows it. */
#include <stdio.h>
#include "uskelzar.h"

static uint8_t file[65536], text[4096];
static uint32_t hits[4 * 64];

int main(void)
{
    uint64_t reply[USKELZAR_REPLY_WORDS];
    struct uskelzar_file map = {file, fread(file, 1, sizeof file, stdin)};
    struct uskelzar_matches found = {hits, 4 * 64, text, sizeof text};
    if (uskelzar_file_simple_lookup(&map, 52.52f, 13.40f, &found, reply) != 0)
        return 1; /* refused, by the number that was returned: hits and text are zero */
    if (reply[USKELZAR_LOOKUP_END] == USKELZAR_END_WHOLE && reply[USKELZAR_SIMPLE_DESCRIBED])
        printf("%.*s\n", (int)reply[USKELZAR_SIMPLE_LENGTH], (const char *)text);
    return 0;
}
