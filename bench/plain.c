/* The engine's job in plain C, without proofs: the header's calls that bench/pointer.c makes, to measure the proved ones against. */
#include <stdbool.h>
#include <string.h>

#include "lomvadric.h"

enum { MOST_JOBS = 255, LONGEST_FRAME = 1000000 };

static const uint64_t LAST_TICK = UINT64_C(1) << 40;
static const uint64_t DEADLINE_CAP = UINT64_C(1) << 44;
static const uint64_t DEADLINE_GROWTH = UINT64_C(1) << 20;

/* ---- the table */

static bool entry_fits(const struct lomvadric_entry *e, uint64_t frame)
{
    return e->period != 0 && e->budget >= 1 && e->budget <= e->period && frame % e->period == 0;
}

static bool rest_is_zero(const struct lomvadric_table *t)
{
    for (size_t i = t->count; i < LOMVADRIC_GUEST_PLACES; i++)
        if (t->entries[i].budget != 0 || t->entries[i].period != 0)
            return false;
    return true;
}

static uint32_t check_table(const struct lomvadric_table *t)
{
    uint64_t shares = 0;
    if (t->count == 0 || t->count > LOMVADRIC_GUEST_PLACES)
        return LOMVADRIC_GUEST_COUNT;
    if (t->frame == 0 || t->frame > LONGEST_FRAME)
        return LOMVADRIC_FRAME_RANGE;
    for (size_t i = 0; i < t->count; i++) {
        const struct lomvadric_entry *e = &t->entries[i];
        if (!entry_fits(e, t->frame))
            return LOMVADRIC_BAD_GUEST;
        shares += e->budget * (t->frame / e->period);
    }
    if (!rest_is_zero(t))
        return LOMVADRIC_BAD_GUEST;
    return shares > t->frame ? LOMVADRIC_SHARE_TOO_LARGE : 0;
}

/* ---- whether a state is sound */

static uint64_t last_deadline(const struct lomvadric_state *s)
{
    return DEADLINE_CAP + s->now * DEADLINE_GROWTH;
}

static bool guest_holds(const struct lomvadric_entry *e, const struct lomvadric_guest *g, uint64_t last)
{
    if (g->jobs > MOST_JOBS || g->current > e->budget || g->deadline > last)
        return false;
    if (g->jobs == 0 && g->current != 0)
        return false;
    return g->own <= LAST_TICK && g->borrowed <= LAST_TICK; /* so that their sum does not wrap */
}

/* The guests, their tallies, and the room that the active ones take. */
static bool guests_hold(const struct lomvadric_state *s)
{
    uint64_t last = last_deadline(s);
    uint64_t ticks = s->burned + s->empty;
    size_t taken = s->listed;
    for (size_t i = 0; i < s->table.count; i++) {
        const struct lomvadric_guest *g = &s->guests[i];
        if (!guest_holds(&s->table.entries[i], g, last))
            return false;
        ticks += g->own + g->borrowed;
        taken += g->jobs != 0;
    }
    return ticks == s->now && taken <= LOMVADRIC_SPARE_PLACES;
}

static bool comes_before(const struct lomvadric_spare *x, const struct lomvadric_spare *y)
{
    return x->deadline < y->deadline || (x->deadline == y->deadline && x->owner < y->owner);
}

static bool spare_holds(const struct lomvadric_state *s, const struct lomvadric_spare *x, uint64_t last)
{
    if (x->owner >= s->table.count)
        return false;
    const struct lomvadric_guest *g = &s->guests[x->owner];
    if (x->capacity < 1 || x->capacity > s->table.entries[x->owner].budget || x->deadline > last)
        return false;
    return x->deadline < g->deadline || (x->deadline == g->deadline && g->jobs == 0);
}

static bool spares_hold(const struct lomvadric_state *s)
{
    uint64_t last = last_deadline(s);
    for (size_t i = 0; i < s->listed; i++) {
        if (!spare_holds(s, &s->spares[i], last))
            return false;
        if (i > 0 && !comes_before(&s->spares[i - 1], &s->spares[i]))
            return false;
    }
    return true;
}

static bool other_guests_zero(const struct lomvadric_state *s)
{
    for (size_t i = s->table.count; i < LOMVADRIC_GUEST_PLACES; i++) {
        const struct lomvadric_guest *g = &s->guests[i];
        if (g->jobs != 0 || g->current != 0 || g->deadline != 0 || g->own != 0 || g->borrowed != 0)
            return false;
    }
    return true;
}

static bool other_spares_zero(const struct lomvadric_state *s)
{
    for (size_t i = s->listed; i < LOMVADRIC_SPARE_PLACES; i++) {
        const struct lomvadric_spare *x = &s->spares[i];
        if (x->deadline != 0 || x->owner != 0 || x->capacity != 0)
            return false;
    }
    return true;
}

static bool is_sound(const struct lomvadric_state *s)
{
    if (check_table(&s->table) != 0 || s->listed > LOMVADRIC_SPARE_PLACES || s->now > LAST_TICK)
        return false;
    if (s->burned > LAST_TICK || s->empty > LAST_TICK)
        return false;
    return guests_hold(s) && spares_hold(s) && other_guests_zero(s) && other_spares_zero(s);
}

/* ---- the calls */

uint32_t lomvadric_fresh(struct lomvadric_state *s, const struct lomvadric_table *t)
{
    memset(s, 0, sizeof *s);
    uint32_t refusal = check_table(t);
    if (refusal == 0)
        s->table = *t;
    return refusal;
}

static size_t active_guests(const struct lomvadric_state *s)
{
    size_t active = 0;
    for (size_t i = 0; i < s->table.count; i++)
        active += s->guests[i].jobs != 0;
    return active;
}

uint32_t lomvadric_arrive(struct lomvadric_state *s, size_t i)
{
    if (!is_sound(s))
        return LOMVADRIC_NOT_SOUND;
    if (i >= s->table.count)
        return LOMVADRIC_NO_SUCH_GUEST;
    struct lomvadric_guest *g = &s->guests[i];
    if (g->jobs == MOST_JOBS)
        return LOMVADRIC_JOBS_FULL;
    if (g->jobs > 0) {
        g->jobs++;
        return 0;
    }
    if (s->listed + active_guests(s) == LOMVADRIC_SPARE_PLACES)
        return LOMVADRIC_NO_ROOM;
    uint64_t from = g->deadline > s->now ? g->deadline : s->now;
    uint64_t deadline = from + s->table.entries[i].period;
    if (deadline > DEADLINE_CAP)
        return LOMVADRIC_DEADLINE_TOO_FAR;
    g->jobs = 1;
    g->current = s->table.entries[i].budget;
    g->deadline = deadline;
    return 0;
}

static void insert_spare(struct lomvadric_state *s, struct lomvadric_spare x)
{
    size_t at = 0;
    while (at < s->listed && comes_before(&s->spares[at], &x))
        at++;
    memmove(&s->spares[at + 1], &s->spares[at], (s->listed - at) * sizeof x);
    s->spares[at] = x;
    s->listed++;
}

uint32_t lomvadric_done(struct lomvadric_state *s, size_t i)
{
    if (!is_sound(s))
        return LOMVADRIC_NOT_SOUND;
    if (i >= s->table.count)
        return LOMVADRIC_NO_SUCH_GUEST;
    struct lomvadric_guest *g = &s->guests[i];
    if (g->jobs == 0)
        return LOMVADRIC_GUEST_IDLE;
    g->jobs--;
    if (g->jobs == 0 && g->current > 0) {
        insert_spare(s, (struct lomvadric_spare){ g->deadline, i, g->current });
        g->current = 0;
    }
    return 0;
}

/* The active guest whose deadline is the earliest once all are renewed, or LOMVADRIC_GUEST_PLACES where nobody is active. */
static size_t earliest(const struct lomvadric_state *s, uint64_t *deadline)
{
    size_t best = LOMVADRIC_GUEST_PLACES;
    for (size_t i = 0; i < s->table.count; i++) {
        const struct lomvadric_guest *g = &s->guests[i];
        if (g->jobs == 0)
            continue;
        uint64_t d = g->current > 0 ? g->deadline : g->deadline + s->table.entries[i].period;
        if (best == LOMVADRIC_GUEST_PLACES || d < *deadline) {
            best = i;
            *deadline = d;
        }
    }
    return best;
}

static struct lomvadric_next next_portion(const struct lomvadric_state *s)
{
    const struct lomvadric_spare *x = &s->spares[0];
    uint64_t deadline = 0;
    size_t i = earliest(s, &deadline);
    if (i == LOMVADRIC_GUEST_PLACES && s->listed == 0)
        return (struct lomvadric_next){ 0, { LOMVADRIC_NOTHING, 0, 0 }, 0, 0 };
    if (i == LOMVADRIC_GUEST_PLACES)
        return (struct lomvadric_next){ 0, { LOMVADRIC_BURN, 0, x->owner }, x->deadline, x->capacity };
    if (s->listed > 0 && x->deadline <= deadline)
        return (struct lomvadric_next){ 0, { LOMVADRIC_SPARE, i, x->owner }, x->deadline, x->capacity };
    uint64_t current = s->guests[i].current;
    return (struct lomvadric_next){ 0, { LOMVADRIC_OWN, i, i }, deadline, current > 0 ? current : s->table.entries[i].budget };
}

struct lomvadric_next lomvadric_ask(const struct lomvadric_state *s)
{
    if (!is_sound(s))
        return (struct lomvadric_next){ LOMVADRIC_NOT_SOUND, { LOMVADRIC_NOTHING, 0, 0 }, 0, 0 };
    return next_portion(s);
}

/* Step 1 of a tick. */
static void renew_guests(struct lomvadric_state *s)
{
    for (size_t i = 0; i < s->table.count; i++) {
        struct lomvadric_guest *g = &s->guests[i];
        if (g->jobs > 0 && g->current == 0) {
            g->current = s->table.entries[i].budget;
            g->deadline += s->table.entries[i].period;
        }
    }
}

static void charge_spare(struct lomvadric_state *s, uint64_t ticks)
{
    s->spares[0].capacity -= ticks;
    if (s->spares[0].capacity > 0)
        return;
    s->listed--;
    memmove(&s->spares[0], &s->spares[1], s->listed * sizeof s->spares[0]);
    s->spares[s->listed] = (struct lomvadric_spare){ 0, 0, 0 };
}

/* One portion, of at most k ticks; says how many it took. */
static uint64_t run_portion(struct lomvadric_state *s, uint64_t k)
{
    renew_guests(s);
    struct lomvadric_next n = next_portion(s);
    uint64_t ticks = n.used.kind == LOMVADRIC_NOTHING || n.span > k ? k : n.span;
    struct lomvadric_guest *g = &s->guests[n.used.guest];
    switch (n.used.kind) {
    case LOMVADRIC_OWN:
        g->current -= ticks;
        g->own += ticks;
        break;
    case LOMVADRIC_SPARE:
        charge_spare(s, ticks);
        g->borrowed += ticks;
        break;
    case LOMVADRIC_BURN:
        charge_spare(s, ticks);
        s->burned += ticks;
        break;
    default:
        s->empty += ticks;
        break;
    }
    s->now += ticks;
    return ticks;
}

uint32_t lomvadric_advance(struct lomvadric_state *s, uint64_t k)
{
    if (!is_sound(s))
        return LOMVADRIC_NOT_SOUND;
    if (LAST_TICK - s->now < k)
        return LOMVADRIC_END_OF_TIME;
    while (k > 0)
        k -= run_portion(s, k);
    return 0;
}
