/* slip MAP ZONES CITIES WHAT plain|atlas ROUNDS: asks for the slip of every city, or for the lookup or the local time in it, through no atlas or one, so many rounds; bench/slip counts the
 * instructions. ROUNDS can be "map" or "zones": each city once, with what a call reads of map and atlas, or of the bundle, watched by reads.so. */
#include "../include/uskelzar.h"
#include <math.h>
#include <stdio.h>
#include <stdlib.h>
#include <string.h>
#include <unistd.h>

enum { MOST = 1 << 15, HITS = 64, TEXT = 1024, LINE = 256 };

static uint8_t map[4 << 20], zones[1 << 20], text[TEXT], out[LINE];
static uint32_t hits[HITS], words[1 << 18];
static struct uskelzar_atlas atlas = {words, 0};
static const struct uskelzar_matches found = {hits, HITS, text, TEXT};
static const struct uskelzar_output line = {out, LINE};
static uint64_t reply[USKELZAR_REPLY_WORDS];

/* A city with one zone, the request that means it, and where its zone's file is. */
struct city {
    float lat, lon;
    int64_t instant;
    char request[128];
    size_t length;
    uint64_t start, size;
};
static struct city cities[MOST];

static size_t read_file(const char *path, uint8_t *room, size_t most)
{
    FILE *file = fopen(path, "rb");
    size_t length = file ? fread(room, 1, most, file) : 0;
    if (!length || fgetc(file) != EOF) {
        fprintf(stderr, "slip: cannot read %s, or it is too long\n", path);
        exit(2);
    }
    fclose(file);
    return length;
}

/* Degrees of a sentence: whole ones, and minutes with six digits. */
static void put_angle(char *to, size_t room, const char *form, double degrees)
{
    long size = lround(fabs(degrees) * 60 * 1000000);
    snprintf(to, room, form, size / 60000000, size % 60000000 / 1000000, size % 1000000);
}

/* At noon of some day of 2026 to 2028; a sentence, or three words. */
static void put_request(struct city *city, double lat, double lon, long nth, int sentence)
{
    static const int days[] = {31, 28, 31, 30, 31, 30, 31, 31, 30, 31, 30, 31};
    int month = (int)(nth % 12), day = 1 + (int)(nth % days[month]), year = 2026 + (int)(nth % 3);
    char north[32], east[32];
    put_angle(north, sizeof north, "%02ld%02ld.%06ld", lat);
    put_angle(east, sizeof east, "%03ld%02ld.%06ld", lon);
    if (!sentence) {
        city->length = (size_t)sprintf(city->request, "%.5f %.5f %04d-%02d-%02dT12:00:00Z", lat, lon, year, month + 1, day);
        return;
    }
    int length = sprintf(city->request, "$GNRMC,120000.00,A,%s,%c,%s,%c,0.0,0.0,%02d%02d%02d,,,A", north, lat < 0 ? 'S' : 'N', east,
                         lon < 0 ? 'W' : 'E', day, month + 1, year % 100);
    unsigned sum = 0;
    for (int i = 1; i < length; i++)
        sum ^= (unsigned char)city->request[i];
    city->length = (size_t)(length + sprintf(city->request + length, "*%02X", sum));
}

/* What the request means, and the file of the one zone that holds the fix; false where there is none, or more. */
static int set_up(struct city *city, const struct uskelzar_printer *printer)
{
    const struct uskelzar_file file = {printer->map, printer->map_length};
    if (uskelzar_request((const uint8_t *)city->request, city->length, reply) != 0)
        return 0;
    uint32_t lat = (uint32_t)reply[USKELZAR_REQUEST_LAT], lon = (uint32_t)reply[USKELZAR_REQUEST_LON];
    memcpy(&city->lat, &lat, sizeof lat);
    memcpy(&city->lon, &lon, sizeof lon);
    memcpy(&city->instant, &reply[USKELZAR_REQUEST_INSTANT], sizeof city->instant);
    if (uskelzar_file_simple_atlas(&file, &atlas, city->lat, city->lon, &found, reply) != 0 || reply[USKELZAR_LOOKUP_MATCHES] != 1)
        return 0;
    if (uskelzar_bundle_find(printer->zones, printer->zones_length, text, reply[USKELZAR_SIMPLE_LENGTH], reply) != 0)
        return 0;
    city->start = reply[USKELZAR_FOUND_START];
    city->size = reply[USKELZAR_FOUND_LENGTH];
    return 1;
}

static uint8_t ask_through(const struct city *city, const struct uskelzar_printer *printer, char what)
{
    const struct uskelzar_file file = {printer->map, printer->map_length};
    switch (what) {
    case 'a': return uskelzar_printer_slip_at_atlas(printer, &atlas, city->lat, city->lon, city->instant, &found, &line, reply);
    case 's': case 'p': return uskelzar_printer_slip_atlas(printer, &atlas, (const uint8_t *)city->request, city->length, &found, &line, reply);
    case 'm': return uskelzar_file_lookup_atlas(&file, &atlas, city->lat, city->lon, false, &found, reply);
    default: exit(2);
    }
}

static uint8_t ask(const struct city *city, const struct uskelzar_printer *printer, char what)
{
    const struct uskelzar_file file = {printer->map, printer->map_length};
    switch (what) {
    case 'a': return uskelzar_printer_slip_at(printer, city->lat, city->lon, city->instant, &found, &line, reply);
    case 's': case 'p': return uskelzar_printer_slip(printer, (const uint8_t *)city->request, city->length, &found, &line, reply);
    case 'm': return uskelzar_file_lookup(&file, city->lat, city->lon, false, &found, reply);
    case 'l': return uskelzar_local_time(zones + city->start, city->size, city->instant, text, TEXT, reply);
    default: exit(2);
    }
}

/* No file has this number, so that nothing is written. */
static void tell(int number, const void *start, size_t length)
{
    if (write(number, start, length) >= 0)
        exit(2);
}

int main(int argc, char **argv)
{
    if (argc != 7)
        return 2;
    struct uskelzar_printer printer = {map, read_file(argv[1], map, sizeof map), zones, read_file(argv[2], zones, sizeof zones)};
    uint8_t (*asked)(const struct city *, const struct uskelzar_printer *, char) = argv[5][0] == 'a' ? ask_through : ask;
    if (uskelzar_build_atlas(map, printer.map_length, words, sizeof words / sizeof *words, reply) != 0)
        return 1;
    atlas.atlas_length = reply[0];
    FILE *from = fopen(argv[3], "r");
    double lat, lon;
    long count = 0, lines = 0;
    while (from && count < MOST && fscanf(from, "%lf %lf%*[^\n]", &lat, &lon) == 2) {
        put_request(&cities[count], lat, lon, lines++, argv[4][0] != 'p');
        count += set_up(&cities[count], &printer);
    }
    uint64_t sum = 0;
    for (long round = atol(argv[6]); round > 0; round--)
        for (long i = 0; i < count; i++) {
            if (asked(&cities[i], &printer, argv[4][0]) != 0)
                return 1;
            sum = sum * 31 + reply[0];
        }
    for (long i = 0; i < count && (argv[6][0] == 'm' || argv[6][0] == 'z'); i++) {
        if (argv[6][0] == 'm') {
            tell(1000, map, printer.map_length);
            tell(1002, words, 4 * atlas.atlas_length);
        } else {
            tell(1000, zones, printer.zones_length);
        }
        asked(&cities[i], &printer, argv[4][0]);
        tell(1001, map, 0);
    }
    printf("%ld %llu\n", count, (unsigned long long)sum);
    return 0;
}
