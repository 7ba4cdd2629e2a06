/* Two labels of Γ(2) exchange partners: what the group would become, then the symbol itself, then back.
 *
 *     tools/prove staticlib engine
 *     cc -I include examples/library/exchange.c target/staticlib/libengine.a -o exchange && ./exchange
 *
 * What is expected stands in exchange.output, worked out by hand: the group with pairings 1 2 1 2 is the commutator subgroup of PSL2(Z), the
 * kernel of the map to Z/6 with S to 3 and T to 1, so T has one cycle of six points. */
#include <inttypes.h>
#include <stdio.h>
#include "farey.h"

static uint16_t work[FAREY_WORK];
static uint32_t widths[FAREY_COSETS];

static void show(const char *name, const int64_t *table, size_t v)
{
    printf("%s", name);
    for (size_t i = 0; i < 3 * v + 1; i++)
        printf(" %" PRId64, table[i]);
    printf("\n");
}

int main(void)
{
    static const int64_t gamma_2[10] = {0, 1, 1, 1, 2, 1, 1, 2, 2, 1};
    int64_t torus[10], again[10];
    uint64_t figures[8], number;
    size_t count, v;

    number = farey_preview(3, gamma_2, 10, 1, 2, work, FAREY_WORK, widths, FAREY_COSETS, figures, &count);
    printf("preview %" PRIu64 ": cusps %" PRIu64 ", genus %" PRIu64 ", level %" PRIu64 ", widths", number, figures[3], figures[5], figures[7]);
    for (size_t i = 0; i < count; i++)
        printf(" %" PRIu32, widths[i]);
    printf("\n");

    number = farey_exchange(3, gamma_2, 10, 1, 2, torus, 10, &v);
    printf("exchange %" PRIu64 "\n", number);
    show("exchanged", torus, v);
    number = farey_exchange(v, torus, 10, 1, 2, again, 10, &v);
    printf("exchange %" PRIu64 "\n", number);
    show("again", again, v);

    number = farey_exchange(3, gamma_2, 10, 2, 2, torus, 10, &v);
    printf("the same label twice: %" PRIu64 " %zu\n", number, v);
    number = farey_preview(3, gamma_2, 10, 3, 1, work, FAREY_WORK, widths, FAREY_COSETS, figures, &v);
    printf("no label: %" PRIu64 " %zu\n", number, v);
    return 0;
}
