/* build YARDS TIMES [alike]: builds a file of so many yards, so many times. */
#include "yards.h"

int main(int argc, char **argv) {
    if (argc < 3) return 2;
    size_t yards = strtoul(argv[1], NULL, 10), times = strtoul(argv[2], NULL, 10);
    int alike = argc > 3;
    uint32_t *counts = lend(4 * yards, 4), *lengths = lend(NAMES + 1 + NAMES * yards, 4);
    int32_t *lats = lend(POINTS * yards, 4), *lons = lend(POINTS * yards, 4);
    uint8_t *texts = lend(64 + 64 * yards, 1);
    size_t behind = put_texts(front, NAMES + 1, lengths, texts, 0), at = behind, n = NAMES + 1;
    for (size_t i = 0; i < yards; i++, n += NAMES) {
        counts[4 * i] = counts[4 * i + 1] = POINTS;
        counts[4 * i + 2] = 0;
        counts[4 * i + 3] = NAMES;
        put_ring(i, yards, lats + POINTS * i, lons + POINTS * i);
        at = put_values(i, alike, lengths + n, texts, at);
    }
    size_t room = 600 * yards + 4096, boxed = USKELZAR_BUILD_BOXES(yards);
    struct uskelzar_yards all = {counts, 4 * yards, lats, POINTS * yards, lons, POINTS * yards, counts, 0, lengths, n, texts, at};
    struct uskelzar_work work = lend_work(yards, USKELZAR_BUILD_HELD(at - behind));
    struct uskelzar_boxes boxes = {lend(boxed, 4), boxed, lend(USKELZAR_BUILD_BYTES(room), 1), USKELZAR_BUILD_BYTES(room)};
    struct uskelzar_output output = {lend(room, 1), room};
    uint64_t reply[USKELZAR_REPLY_WORDS] = {0};
    for (size_t i = 0; i < times; i++) {
        uint8_t number = uskelzar_yards_build('T', 1, 25, NAMES, &all, &work, &boxes, &output, reply);
        if (number) {
            printf("refused %u\n", number);
            return 1;
        }
    }
    printf("%llu bytes\n", (unsigned long long)reply[USKELZAR_BUILD_LENGTH]);
    return 0;
}
