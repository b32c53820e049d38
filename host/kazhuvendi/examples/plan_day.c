/*
 * Plans the day file that is named, says what the plan comes to and prints its
 * words. The buffers are as large as the largest day needs: 240 stops, 15 tips.
 */
#include <inttypes.h>
#include <stdio.h>

#include "kazhuvendi.h"

enum { DAY_WORDS = 7 + 2 * 15 + 3 * 240 + 256 * 256, ROOM = 5 * 240 };

static const uint64_t NEIGHBOURS = 50, BUDGET = 1000000;

/* One byte more than a day can have, so that a longer file is refused. */
static uint8_t bytes[4 * DAY_WORDS + 1];
static uint32_t day[DAY_WORDS], plan[ROOM], work[ROOM];

static int refused(const uint64_t out[6])
{
    printf("refused, %" PRIu64 ", place %" PRIu64 "\n", out[0], out[1]);
    return 1;
}

int main(int argc, char **argv)
{
    uint64_t out[6];
    FILE *file = argc == 2 ? fopen(argv[1], "rb") : NULL;
    if (file == NULL) {
        fprintf(stderr, "give the name of a day file\n");
        return 1;
    }
    size_t length = fread(bytes, 1, sizeof bytes, file);
    fclose(file);

    kz_read_words(bytes, length, day, DAY_WORDS, out);
    if (out[0] != 0)
        return refused(out);
    size_t words = (size_t)out[1];
    kz_plan(day, words, NEIGHBOURS, BUDGET, plan, ROOM, work, ROOM, out);
    if (out[0] != 0)
        return refused(out);

    printf("distance %" PRIu64 ", trials %" PRIu64 ", %s, stops left out %" PRIu64 "\n", out[1],
           out[2], out[3] == 1 ? "settled" : "not settled", out[4]);
    for (size_t i = 0; i < out[5]; i++)
        printf("%08" PRIX32 "\n", plan[i]);
    return 0;
}
