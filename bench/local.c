/* Asks a TZif file for local time so many times, at instants spread over its transitions; bench/tzif counts the instructions. */
#include "../include/uskelzar.h"
#include <stdio.h>
#include <stdlib.h>

static uint8_t file[1 << 20];

int main(int argc, char **argv)
{
    if (argc != 3)
        return 2;
    FILE *from = fopen(argv[1], "rb");
    if (!from)
        return 2;
    size_t length = fread(file, 1, sizeof file, from);
    fclose(from);
    long times = atol(argv[2]);
    uint64_t reply[USKELZAR_REPLY_WORDS], sum = 0;
    uint8_t text[64];
    for (long i = 0; i < times; i++) {
        int64_t instant = -2500000000 + i % 97 * 41000000;
        if (uskelzar_local_time(file, length, instant, text, sizeof text, reply) != 0)
            return 1;
        sum = sum * 31 + reply[USKELZAR_LOCAL_OFFSET];
    }
    printf("%llu\n", (unsigned long long)sum);
    return 0;
}
