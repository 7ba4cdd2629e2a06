/* Several subgroups: which contains which, where two of them meet, and towers.
 *
 *     tools/prove staticlib engine
 *     cc -I include examples/library/subgroups.c target/staticlib/libengine.a -o subgroups && ./subgroups
 *
 * The groups are PSL2(Z), Γ0(2), a conjugate of it and Γ(2). What is expected stands in subgroups.output, worked out by hand: modulo 2 PSL2(Z) becomes
 * the group of the permutations of three things, Γ0(2) and its conjugates those that keep one of them, and Γ(2) the identity. So any two conjugates meet in Γ(2), whose
 * tables stand in the engine's paper on conventions. */
#include <inttypes.h>
#include <stdio.h>
#include "farey.h"

static uint16_t work[FAREY_WORK];
static uint32_t s[FAREY_INTERSECTION], r[FAREY_INTERSECTION], t[FAREY_INTERSECTION];

static const int64_t whole[4] = {0, 1, -2, -3}, gamma0_2[7] = {0, 1, 1, 1, 1, -2, 1}, conjugate[7] = {0, 1, 1, 1, -2, 1, 1},
                     gamma_2[10] = {0, 1, 1, 1, 2, 1, 1, 2, 2, 1};

static void contains(const char *name, size_t v, const int64_t *one, size_t m, const int64_t *other)
{
    size_t yes;
    uint64_t number = farey_contains(v, one, 3 * v + 1, m, other, 3 * m + 1, work, FAREY_WORK, &yes);
    printf("%s: %" PRIu64 ", %s\n", name, number, yes ? "yes" : "no");
}

static void show(const char *name, const uint32_t *table, size_t points)
{
    printf("%s", name);
    for (size_t i = 0; i < points; i++)
        printf(" %" PRIu32, table[i]);
    printf("\n");
}

/* A tower of three: PSL2(Z), Γ0(2) and Γ(2), each with the number of the entry that it names. */
static void tower(const char *name, size_t count, int64_t first, int64_t second)
{
    int64_t table[3 * 2 + 4 + 7 + 10], *at = table;
    size_t place;
    uint64_t number;
    *at++ = -1, *at++ = 1;
    for (size_t i = 0; i < 4; i++)
        *at++ = whole[i];
    *at++ = first, *at++ = 2;
    for (size_t i = 0; i < 7; i++)
        *at++ = gamma0_2[i];
    *at++ = second, *at++ = 3;
    for (size_t i = 0; i < 10; i++)
        *at++ = gamma_2[i];
    number = farey_tower(count, table, (size_t)(at - table), work, FAREY_WORK, &place);
    printf("%s: %" PRIu64 " %zu\n", name, number, place);
}

/* PSL2(Z) with a symbol of 1,023 vertices, the integers from 0 on, all sides even but for `odd` of them: 3,066 points and one more for each odd side. */
static void limit(size_t odd)
{
    static int64_t table[FAREY_TABLE];
    size_t place;
    uint64_t number;
    for (size_t i = 0; i < 1023; i++)
        table[2 * i] = (int64_t)i, table[2 * i + 1] = 1;
    for (size_t i = 0; i < 1024; i++)
        table[2046 + i] = i < odd ? -3 : -2;
    number = farey_intersection(1, whole, 4, 1023, table, FAREY_TABLE, work, FAREY_WORK, s, FAREY_INTERSECTION, r, FAREY_INTERSECTION, t,
                                FAREY_INTERSECTION, &place);
    printf("odd sides %zu: %" PRIu64 " %zu\n", odd, number, place);
}

int main(void)
{
    int64_t made[FAREY_TABLE];
    size_t points, v, same;
    uint64_t number;

    contains("Γ0(2) contains Γ(2)", 2, gamma0_2, 3, gamma_2);
    contains("Γ(2) contains Γ0(2)", 3, gamma_2, 2, gamma0_2);
    contains("Γ0(2) contains its conjugate", 2, gamma0_2, 2, conjugate);
    contains("Γ0(2) contains itself", 2, gamma0_2, 2, gamma0_2);

    number = farey_intersection(2, gamma0_2, 7, 2, conjugate, 7, work, FAREY_WORK, s, FAREY_INTERSECTION, r, FAREY_INTERSECTION, t, FAREY_INTERSECTION,
                                &points);
    printf("intersection: %" PRIu64 " %zu\n", number, points);
    show("S", s, points);
    show("R", r, points);
    show("T", t, points);

    /* A symbol of the intersection: that of Γ(2), or another one of the same group. */
    number = farey_import_wide(s, points, r, points, work, FAREY_WORK, made, FAREY_TABLE, &v);
    printf("symbol: %" PRIu64 " %zu\n", number, v);
    number = farey_same(v, made, 3 * v + 1, 3, gamma_2, 10, work, FAREY_WORK, &same);
    printf("it is Γ(2): %" PRIu64 ", %s\n", number, same ? "yes" : "no");
    number = farey_intersection(2, gamma0_2, 7, 2, conjugate, 7, work, FAREY_WORK, s, 6, r, 6, t, 5, &points);
    printf("a short table of T: %" PRIu64 " %zu\n", number, points);
    limit(0);
    limit(1);

    tower("each in the one before", 3, 0, 1);
    tower("both in the first", 3, 0, 0);
    tower("no claim", 3, -1, -1);
    tower("one names itself", 3, 1, 1);
    tower("one names a later entry", 3, 2, 1);
    tower("two entries only, and a table that is too long", 2, 0, 0);
    tower("none", 0, 7, 7);
    tower("65 entries", 65, 0, 1);
    number = farey_tower(2, (const int64_t[]){-1, 2, 0, 1, 1, 1, 1, -2, 1, 0, 2, 0, 1, 1, 1, -2, 1, 1}, 18, work, FAREY_WORK, &points);
    printf("a conjugate in Γ0(2): %" PRIu64 " %zu\n", number, points);
    return 0;
}
