/* loop.c: an integrator's loop, as a hypervisor would have it: ask who runs next, run it until its span ends or an event comes, ask again.
   crates/example_loop is the same loop in Rattle, and writes the same lines. */
#include <inttypes.h>
#include <stdio.h>

#include "lomvadric.h"

/* The tick at which the run is over. */
#define END 3600

enum { CLUSTER_VIEW, MEDIA, NAVIGATION, PHONE, GUESTS };

/* A tick is 10 microseconds, so the cluster view has 2 milliseconds of every 10. A hypervisor has its table in an image, and reads it by
   lomvadric_read_image. */
static const struct lomvadric_table table = {4000, GUESTS, {{200, 1000}, {400, 2000}, {1000, 4000}, {500, 2000}}};

enum call { ARRIVE, DONE };

struct event {
    uint64_t tick;
    enum call call;
    size_t guest;
};

/* A hypervisor has interrupts and the calls of its guests instead. The last event is never handed over: it stands for the end. */
static const struct event events[] = {
    {0, ARRIVE, CLUSTER_VIEW},
    {0, ARRIVE, NAVIGATION},
    {100, DONE, CLUSTER_VIEW},
    {400, ARRIVE, MEDIA},
    {1000, ARRIVE, CLUSTER_VIEW},
    {1200, DONE, CLUSTER_VIEW},
    {1400, DONE, PHONE}, /* the phone is idle, so this one is refused */
    {1600, DONE, NAVIGATION},
    {1900, DONE, MEDIA},
    {2500, ARRIVE, PHONE},
    {2700, ARRIVE, PHONE},
    {3200, DONE, PHONE},
    {3300, DONE, PHONE},
    {END, ARRIVE, CLUSTER_VIEW},
};

/* Who runs on what, and the span that was told. */
static void write_use(const struct lomvadric_next *next)
{
    switch (next->used.kind) {
    case LOMVADRIC_OWN:
        printf("%zu own, span %" PRIu64 "\n", next->used.guest, next->span);
        break;
    case LOMVADRIC_SPARE:
        printf("%zu spare of %zu, span %" PRIu64 "\n", next->used.guest, next->used.owner, next->span);
        break;
    case LOMVADRIC_BURN:
        printf("- burned spare of %zu, span %" PRIu64 "\n", next->used.owner, next->span);
        break;
    default:
        puts("- idle");
    }
}

/* Here a hypervisor starts the guest, or sleeps where there is none, with its timer set to so many ticks. */
static void start(const struct lomvadric_next *next, uint64_t clock, uint64_t ticks)
{
    printf("%" PRIu64 " %" PRIu64 " ", clock, clock + ticks);
    write_use(next);
}

/* A refused event changes nothing, so there is nothing to undo, and the loop goes on. */
static void hand_over(struct lomvadric_state *state, const struct event *event)
{
    printf("at %" PRIu64 " %s %zu\n", event->tick, event->call == ARRIVE ? "arrive" : "done", event->guest);
    uint32_t refusal = event->call == ARRIVE ? lomvadric_arrive(state, event->guest) : lomvadric_done(state, event->guest);
    if (refusal != 0) {
        printf("! %" PRIu32 "\n", refusal);
    }
}

/* How long to run before asking again: behind the span comes another portion, and an event may change who runs. */
static uint64_t ticks_to_run(const struct lomvadric_next *next, uint64_t room)
{
    return next->used.kind != LOMVADRIC_NOTHING && next->span < room ? next->span : room;
}

/* The clock is the hypervisor's: the library reads none, and is told how many ticks passed. */
static uint32_t run_guests(struct lomvadric_state *state)
{
    const struct event *event = events;
    uint64_t ticks;
    for (uint64_t clock = 0; clock < END; clock += ticks) {
        while (event->tick <= clock)
            hand_over(state, event++);
        struct lomvadric_next next = lomvadric_ask(state);
        if (next.refusal != 0) return next.refusal;
        ticks = ticks_to_run(&next, event->tick - clock);
        start(&next, clock, ticks);
        uint32_t refusal = lomvadric_advance(state, ticks);
        if (refusal != 0) return refusal;
    }
    return 0;
}

static void write_end(const struct lomvadric_state *state)
{
    printf("end %" PRIu64 "\n", state->now);
    for (size_t i = 0; i < GUESTS; i++) {
        printf("guest %zu own %" PRIu64 " spare %" PRIu64 "\n", i, state->guests[i].own, state->guests[i].borrowed);
    }
    printf("burned %" PRIu64 "\nidle %" PRIu64 "\n", state->burned, state->empty);
}

int main(void)
{
    static struct lomvadric_state state;
    uint32_t refusal = lomvadric_fresh(&state, &table);
    if (refusal == 0) {
        refusal = run_guests(&state);
    }
    if (refusal != 0) {
        fprintf(stderr, "loop: %" PRIu32 " %s\n", refusal, lomvadric_refusal_text(refusal));
        return 1;
    }
    write_end(&state);
    return 0;
}
