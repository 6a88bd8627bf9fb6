/* Plans a ward of two nurses and three days, first the nights, then the days, and checks the roster. Then it keeps the nights, looks for
 * another roster past zero, and returns to the nights that it kept.
 *
 *   (cd crates/pantheryl && rt lib)
 *   cc -I include tests/examples/example.c crates/pantheryl/out/libpantheryl.a -o target/example && target/example
 */
#include <stdio.h>

#include "pantheryl.h"

/* Every number is below 128, so each is one byte. */
static const uint8_t ward[] = {
    2, 3, 0, 1, 1, 1, 1, 1, 2, 3, 1, 1, 1, 1, 1, 1, /* nurses, days, groups, most nights, longest run, three gaps, TL, longest run of days, weights */
    0, 0, 0, 0, 0, 0, 0, 0, 1, 0, 3, 0, 0, 0,       /* nurse 1: seven duties, bounds of nights and of rests, three marks */
    0, 0, 0, 0, 0, 0, 0, 0, 1, 0, 3, 0, 0, 1,       /* nurse 2 */
    1, 1, 0, 1, 0, 0,                               /* each day: night need, day need */
};

static void print(const char *call, const uint64_t answer[PANTHERYL_ANSWER])
{
    printf("%s:", call);
    for (int i = 0; i < PANTHERYL_ANSWER; i++)
        printf(" %llu", (unsigned long long)answer[i]);
    printf("\n");
}

static uint32_t buffer[16384];
static uint8_t roster[PANTHERYL_ROSTER];

/* Plans the days over a night record that is at zero: a search of its own, from fresh. Prints the roster and gives the number of its letters. */
static size_t plan_days(const uint32_t nights[PANTHERYL_RECORD])
{
    uint32_t days[PANTHERYL_RECORD] = {0};
    uint64_t answer[PANTHERYL_ANSWER];

    /* The choice of nights is the first words of the night record: patterns and, in a ward that has them, pairs. */
    pantheryl_advance_days(ward, sizeof ward, nights, days, 1000, 0, buffer, 16384, roster, answer);
    print("days", answer);
    size_t letters = answer[5];
    for (size_t i = 0; i < letters; i += 3)
        printf("%.3s\n", (const char *)roster + i);
    return letters;
}

int main(void)
{
    static uint32_t storage[PANTHERYL_STORAGE]; /* zeros: nothing is kept */
    uint32_t nights[PANTHERYL_RECORD] = {0};
    uint64_t answer[PANTHERYL_ANSWER];

    pantheryl_advance_nights(ward, sizeof ward, nights, 1000, 0, buffer, 16384, answer);
    print("nights", answer);
    size_t letters = plan_days(nights);
    pantheryl_check(ward, sizeof ward, roster, letters, answer);
    print("check", answer);

    /* Keep these nights under number 1, and go on past zero: two steps later there are others. */
    pantheryl_keep(nights, 1, storage, PANTHERYL_STORAGE, answer);
    print("keep", answer);
    pantheryl_advance_nights(ward, sizeof ward, nights, 2, 1, buffer, 16384, answer);
    print("past zero", answer);
    plan_days(nights);

    /* The first ones again. */
    pantheryl_return(nights, 1, storage, PANTHERYL_STORAGE, answer);
    print("return", answer);
    plan_days(nights);
    return 0;
}
