/*
 * Calls the library from C, as its header says. Each call prints its name and
 * all six numbers of `out`, which hold something else before.
 */
#include <inttypes.h>
#include <stdio.h>

#include "kazhuvendi.h"

static uint32_t day_m[31] = {
    0x10000102, 0x20000064, 0x300000C8, 0x40000005, 0x50000064, 0x6001E03C, 0x7000000A,
    0x50000064, 0x70000005,
    0x50000032, 0x70000005, 0x8000003C,
    0x50000032, 0x70000005, 0x80000032,
    0x90000000, 0x900A0007, 0x900A0007, 0x900A0007,
    0x900A0007, 0x90000000, 0x900A0007, 0x900A0007,
    0x900A0007, 0x900A0007, 0x90000000, 0x900A0007,
    0x900A0007, 0x900A0007, 0x900A0007, 0x90000000,
};

/* One vehicle for both stops, and one for each. */
static const uint32_t plan_m[7] = {
    0xA0000001, 0xB0000001, 0xC0000001, 0xD0000000, 0xB0000002, 0xC0000001, 0xE0000000,
};
static const uint32_t two_vehicles[8] = {
    0xA0000001, 0xB0000001, 0xC0000001, 0xE0000000,
    0xA0000002, 0xB0000002, 0xC0000001, 0xE0000000,
};
static const uint32_t zeros[4097];

static const uint8_t bytes[28] = {
    0x78, 0x56, 0x34, 0x12, 0, 0, 0, 0, 0, 0, 0, 0, 0, 0,
    0, 0, 0, 0, 0, 0, 0, 0, 0, 0, 0xFF, 0, 0, 0x80,
};

/* No stop, so that 13 words are needed. */
static const char *const text =
    "R1\nVEHICLE\nNUMBER CAPACITY\n25 200\nCUSTOMER\nCUST X Y DEMAND READY DUE SERVICE\n"
    "0 35 35 0 0 230 0\n";

static void print(const char *name, const uint64_t out[6])
{
    printf("%s", name);
    for (int i = 0; i < 6; i++)
        printf(" %" PRIu64, out[i]);
    printf("\n");
}

static void print_words(const uint32_t *words, int count)
{
    for (int i = 0; i < count; i++)
        printf("%" PRIX32 "%s", words[i], i < count - 1 ? " " : "\n");
}

static void judge(const char *name, const uint32_t *day, size_t n)
{
    uint64_t out[6] = {99, 99, 99, 99, 99, 99};
    kz_judge(day, n, out);
    print(name, out);
}

static void check(const char *name, const uint32_t *plan, size_t m)
{
    uint64_t out[6] = {99, 99, 99, 99, 99, 99};
    kz_check(day_m, 31, plan, m, out);
    print(name, out);
}

static void vehicle(const char *name, const uint32_t *plan, size_t m, uint64_t number)
{
    uint64_t out[6] = {99, 99, 99, 99, 99, 99};
    kz_vehicle(day_m, 31, plan, m, number, out);
    print(name, out);
}

static void same_rounds(const char *name, const uint32_t *second, size_t l)
{
    uint64_t out[6] = {99, 99, 99, 99, 99, 99};
    kz_same_rounds(day_m, 31, plan_m, 7, second, l, out);
    print(name, out);
}

static void build(const char *name, size_t room)
{
    uint32_t plan[12] = {7, 7, 7, 7, 7, 7, 7, 7, 7, 7, 7, 7};
    uint64_t out[6] = {99, 99, 99, 99, 99, 99};
    kz_build(day_m, 31, plan, room, out);
    print(name, out);
    print_words(plan, 12);
}

/* The working buffer is free, but not what stands behind it. */
static void plan(const char *name, uint64_t k, uint64_t budget, size_t room, size_t work_room)
{
    uint32_t words[12] = {7, 7, 7, 7, 7, 7, 7, 7, 7, 7, 7, 7};
    uint32_t work[12] = {7, 7, 7, 7, 7, 7, 7, 7, 7, 7, 7, 7};
    uint64_t out[6] = {99, 99, 99, 99, 99, 99};
    kz_plan(day_m, 31, k, budget, words, room, work, work_room, out);
    print(name, out);
    print_words(words, 12);
    print_words(work + 10, 2);
}

static void plan_growing(const char *name, uint64_t budget, size_t room, size_t work_room)
{
    uint32_t words[12] = {7, 7, 7, 7, 7, 7, 7, 7, 7, 7, 7, 7};
    uint32_t work[12] = {7, 7, 7, 7, 7, 7, 7, 7, 7, 7, 7, 7};
    uint64_t out[6] = {99, 99, 99, 99, 99, 99};
    kz_plan_growing(day_m, 31, budget, words, room, work, work_room, out);
    print(name, out);
    print_words(words, 12);
    print_words(work + 10, 2);
}

static void read_words(const char *name, size_t n, size_t room)
{
    uint32_t words[9] = {7, 7, 7, 7, 7, 7, 7, 7, 7};
    uint64_t out[6] = {99, 99, 99, 99, 99, 99};
    kz_read_words(bytes, n, words, room, out);
    print(name, out);
    print_words(words, 9);
}

/* The text, and what stands behind it. */
static void import_solomon(const char *name, const char *behind, size_t room)
{
    char whole[200];
    uint32_t words[14] = {7, 7, 7, 7, 7, 7, 7, 7, 7, 7, 7, 7, 7, 7};
    uint64_t out[6] = {99, 99, 99, 99, 99, 99};
    int length = snprintf(whole, sizeof whole, "%s%s", text, behind);
    kz_import_solomon((const uint8_t *)whole, (size_t)length, words, room, out);
    print(name, out);
    print_words(words, 14);
}

int main(void)
{
    judge("accepted", day_m, 31);
    judge("cut", day_m, 30);
    judge("short", day_m, 6);
    judge("none", NULL, 0);
    check("lawful", plan_m, 7);
    check("vehicles", two_vehicles, 8);
    check("unfinished", plan_m, 6);
    check("missing", two_vehicles, 4);
    check("empty", NULL, 0);
    check("long", zeros, 4097);
    vehicle("whole", plan_m, 7, 1);
    vehicle("second", two_vehicles, 8, 2);
    vehicle("third", two_vehicles, 8, 3);
    vehicle("zeroth", two_vehicles, 8, 0);
    vehicle("wide", two_vehicles, 8, UINT64_C(0x100000001));
    vehicle("neither", NULL, 0, 1);
    same_rounds("same", plan_m, 7);
    same_rounds("other", two_vehicles, 8);
    same_rounds("longer", zeros, 4097);
    same_rounds("nothing", NULL, 0);
    build("built", 11);
    build("narrow", 9);
    plan("planned", 5, 6, 11, 10);
    plan("stopped", 5, 5, 10, 10);
    plan("neighbours", 51, 6, 9, 9);
    plan("tight", 50, 6, 9, 10);
    plan("working", 50, 6, 10, 9);
    plan_growing("growing", 24, 11, 10);
    plan_growing("ended", 23, 10, 10);
    plan_growing("slim", 24, 9, 10);
    plan_growing("scarce", 24, 10, 9);
    day_m[11] = 0x80000065;
    build("left", 10);
    day_m[5] = 0x6003C01E;
    judge("window", day_m, 31);
    check("day", plan_m, 7);
    build("before", 0);
    plan("first", 0, 6, 0, 0);
    plan_growing("also", 24, 0, 0);
    day_m[4] = 0x40000064;
    judge("kind", day_m, 31);
    day_m[0] = 0x10000002;
    judge("size", day_m, 31);
    read_words("read", 28, 9);
    read_words("room", 28, 6);
    read_words("bytes", 27, 9);
    import_solomon("imported", "", 14);
    import_solomon("just", "\n", 13);
    import_solomon("lacking", "", 12);
    import_solomon("stop", "1 41 49 10 161 171 10", 14);
    import_solomon("form", "1 41 49 10 161 171", 0);
    import_solomon("limit", "1 41 1001", 14);
    import_solomon("due", "1 41 49 10 161 160 10\n", 14);
    return 0;
}
