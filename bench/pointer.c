/* Makes the calls that crates/bench_measure makes, from C and by pointer: same input, same checksum. With liblomvadric.a it shows what a call
   through the header costs, with bench/plain.c what plain C costs. */
#include <inttypes.h>
#include <stdio.h>

#include "lomvadric.h"

/* ---- the state that a call is measured on, as crates/bench_measure/src/setting.rt makes it */

enum { FRAME = 240, BUDGET = 4, MOST_SPARES = 63 };

static struct lomvadric_table table_of(size_t guests, uint64_t budget)
{
    struct lomvadric_table t = { FRAME, guests, { { 0, 0 } } };
    for (size_t i = 0; i < guests; i++)
        t.entries[i] = (struct lomvadric_entry){ budget, FRAME / (i / 3 + 1) };
    return t;
}

static void leave_spares(struct lomvadric_state *s, size_t guests, uint64_t spares)
{
    for (uint64_t n = 0; n < spares; n++) {
        lomvadric_arrive(s, n % guests);
        lomvadric_done(s, n % guests);
    }
}

static void wake_guests(struct lomvadric_state *s, size_t guests)
{
    for (size_t i = 0; i < guests; i++)
        lomvadric_arrive(s, i);
}

static void prepare(struct lomvadric_state *s, unsigned call, size_t guests, uint64_t wanted)
{
    uint64_t spares = wanted < MOST_SPARES ? wanted : MOST_SPARES;
    size_t others = guests - 1 < MOST_SPARES - spares ? guests - 1 : MOST_SPARES - spares;
    struct lomvadric_table t = table_of(guests, call == 5 ? 1 : BUDGET);
    lomvadric_fresh(s, &t);
    leave_spares(s, guests, spares);
    wake_guests(s, others);
    if (call != 1)
        lomvadric_arrive(s, guests - 1);
}

/* ---- the checksum */

static uint64_t mixed(uint64_t sum, uint64_t x)
{
    return (2 * sum + x) ^ (sum >> 7);
}

static uint64_t guests_mixed(uint64_t sum, const struct lomvadric_guest *g)
{
    for (size_t i = 0; i < LOMVADRIC_GUEST_PLACES; i++)
        sum = mixed(mixed(mixed(mixed(mixed(sum, g[i].jobs), g[i].current), g[i].deadline), g[i].own), g[i].borrowed);
    return sum;
}

static uint64_t spares_mixed(uint64_t sum, const struct lomvadric_spare *x)
{
    for (size_t i = 0; i < LOMVADRIC_SPARE_PLACES; i++)
        sum = mixed(mixed(mixed(sum, x[i].deadline), x[i].owner), x[i].capacity);
    return sum;
}

static uint64_t state_digest(uint64_t sum, const struct lomvadric_state *s)
{
    sum = mixed(mixed(mixed(mixed(sum, s->now), s->listed), s->burned), s->empty);
    return spares_mixed(guests_mixed(sum, s->guests), s->spares);
}

static uint64_t next_mixed(uint64_t sum, const struct lomvadric_next *n)
{
    if (n->used.kind == LOMVADRIC_NOTHING)
        return sum;
    if (n->used.kind != LOMVADRIC_BURN)
        sum = mixed(sum, n->used.guest);
    if (n->used.kind != LOMVADRIC_OWN)
        sum = mixed(sum, n->used.owner);
    return mixed(mixed(sum, n->deadline), n->span);
}

/* ---- the turns */

static uint64_t one_turn(uint64_t sum, struct lomvadric_state *s, unsigned call, size_t last)
{
    struct lomvadric_next next = { 0, { LOMVADRIC_NOTHING, 0, 0 }, 0, 0 };
    uint32_t refusal = 0;
    switch (call) {
    case 1:
        refusal = lomvadric_arrive(s, last);
        break;
    case 2:
        refusal = lomvadric_done(s, last);
        break;
    case 3:
        next = lomvadric_ask(s);
        refusal = next.refusal;
        break;
    case 4:
        refusal = lomvadric_advance(s, BUDGET);
        break;
    }
    return mixed(mixed(next_mixed(sum, &next), refusal), s->now);
}

/* Each turn starts on a copy, because the calls change the state in place; a turn of call 0 shows what the copy costs. */
static uint64_t turns(const struct lomvadric_state *start, unsigned call, size_t last, uint64_t times)
{
    struct lomvadric_state s = *start;
    uint64_t sum = 0;
    for (uint64_t n = 0; n < times; n++) {
        s = *start;
        sum = one_turn(sum, &s, call, last);
    }
    return state_digest(sum, &s);
}

int main(void)
{
    static struct lomvadric_state s;
    unsigned call;
    size_t guests;
    uint64_t spares, times;
    if (scanf("%u %zu %" SCNu64 " %" SCNu64, &call, &guests, &spares, &times) != 4 || guests < 1 || guests > LOMVADRIC_GUEST_PLACES)
        return 1;
    prepare(&s, call, guests, spares);
    if (call == 5)
        lomvadric_advance(&s, times);
    uint64_t sum = call == 5 ? state_digest(0, &s) : turns(&s, call, guests - 1, times);
    printf("%" PRIu64 "\n", sum);
    return 0;
}
