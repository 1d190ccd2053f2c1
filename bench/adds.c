/* adds MOST YARDS: begins a builder whose lists have room for MOST yards, and adds the first YARDS of these. All lists are lent whole at each call. */
#include "yards.h"

int main(int argc, char **argv) {
    if (argc < 3) return 2;
    size_t most = strtoul(argv[1], NULL, 10), yards = strtoul(argv[2], NULL, 10), room = 600 * most + 4096;
    uint64_t state[USKELZAR_STATE_WORDS], reply[USKELZAR_REPLY_WORDS] = {0, 0, 1};
    uint32_t sizes[NAMES + 1];
    uint8_t strings[256];
    int32_t lats[POINTS], lons[POINTS];
    size_t boxed = USKELZAR_HELD_BOXES(most), borders = USKELZAR_HELD_BORDERS(most), lengths = USKELZAR_HELD_LENGTHS(most, NAMES), texts = 64 + 64 * most;
    struct uskelzar_builder builder = {state, lend(boxed, 4), boxed, lend(borders, 4), borders, lend(lengths, 4), lengths, lend(texts, 1), texts, lend(room, 1), room};
    struct uskelzar_notes notes = lend_notes(most);
    struct uskelzar_work work = lend_work(most, 64 * most);
    struct uskelzar_output output = {lend(room, 1), room};
    struct uskelzar_names names = {sizes, NAMES + 1, strings, put_texts(front, NAMES + 1, sizes, strings, 0)};
    uint8_t number = uskelzar_builder_begin(&builder, 'T', 1, 25, NAMES, room, &names, reply);
    for (size_t i = 0; i < yards && !number; i++) {
        put_ring(i, most, lats, lons);
        struct uskelzar_yard yard = {{lats, POINTS, lons, POINTS, sizes, 0}, sizes, NAMES, strings, put_values(i, 0, sizes, strings, 0)};
        number = uskelzar_builder_add(&builder, &yard, &notes, &work, &output, reply);
    }
    if (number) {
        printf("refused %u\n", number);
        return 1;
    }
    printf("%llu yards\n", (unsigned long long)reply[USKELZAR_TOTALS_YARDS]);
    return 0;
}
