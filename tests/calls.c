/* calls.c: every call of the header from C: what it gives, each refusal that it can give, and that a refused call changes nothing. Prints what
   is wrong, or how many answers were as they must be. */
#include <stdio.h>
#include <string.h>

#include "lomvadric.h"

static int looked_at, wrong;

static void expect(int holds, const char *what)
{
    looked_at++;
    if (!holds) {
        wrong++;
        printf("wrong: %s\n", what);
    }
}

/* A state has no padding, so its bytes are its numbers. */
static int same(const struct lomvadric_state *a, const struct lomvadric_state *b)
{
    return memcmp(a, b, sizeof *a) == 0;
}

/* ---- states */

static const struct lomvadric_table two_guests = {8, 2, {{3, 4}, {2, 8}}};
static const struct lomvadric_table no_table = {0, 0, {{0, 0}}};

/* Two guests that have arrived, after two ticks, when the first is done. It lies where nothing can be written. */
static const struct lomvadric_state after_done = {
    {8, 2, {{3, 4}, {2, 8}}}, 2, {{0, 0, 4, 2, 0}, {1, 2, 8, 0, 0}}, 1, {{4, 0, 1}}, 0, 0,
};

static struct lomvadric_state fresh_of(uint64_t budget, uint64_t period)
{
    struct lomvadric_table table = no_table;
    struct lomvadric_state state;
    table.frame = period;
    table.count = 1;
    table.entries[0].budget = budget;
    table.entries[0].period = period;
    expect(lomvadric_fresh(&state, &table) == 0, "fresh of one guest");
    return state;
}

static struct lomvadric_state with_jobs(int jobs)
{
    struct lomvadric_state state = fresh_of(3, 4);
    for (int n = 0; n < jobs; n++) {
        expect(lomvadric_arrive(&state, 0) == 0, "one more job");
    }
    return state;
}

static struct lomvadric_state with_spares(int spares)
{
    struct lomvadric_state state = fresh_of(1, 1);
    for (int n = 0; n < spares; n++) {
        expect(lomvadric_arrive(&state, 0) == 0 && lomvadric_done(&state, 0) == 0, "one more spare");
    }
    return state;
}

/* ---- calls that change a state */

static uint32_t arrive(struct lomvadric_state *state, uint64_t guest)
{
    return lomvadric_arrive(state, guest);
}

static uint32_t done(struct lomvadric_state *state, uint64_t guest)
{
    return lomvadric_done(state, guest);
}

static uint32_t walk(struct lomvadric_state *state, uint64_t ticks)
{
    struct lomvadric_walked walked = lomvadric_walk(state, ticks);
    int nothing = walked.left == 0 && walked.shown == 0;
    for (size_t i = 0; i < LOMVADRIC_LINE_PLACES; i++) {
        const struct lomvadric_line *line = &walked.lines[i];
        nothing = nothing && line->first == 0 && line->end == 0;
        nothing = nothing && line->used.kind == LOMVADRIC_NOTHING && line->used.guest == 0 && line->used.owner == 0;
    }
    expect(walked.refusal == 0 || nothing, "a refused walk shows nothing");
    return walked.refusal;
}

static void refuses(uint32_t (*call)(struct lomvadric_state *, uint64_t), struct lomvadric_state state, uint64_t number, uint32_t refusal)
{
    struct lomvadric_state before = state;
    expect(call(&state, number) == refusal, lomvadric_refusal_text(refusal));
    expect(same(&state, &before), "a refused call leaves the state as it was");
}

static void check_changes(void)
{
    struct lomvadric_state state;
    memset(&state, 0xa5, sizeof state);
    expect(lomvadric_fresh(&state, &two_guests) == 0, "fresh");
    expect(lomvadric_arrive(&state, 0) == 0 && lomvadric_arrive(&state, 1) == 0, "arrive");
    expect(lomvadric_advance(&state, 2) == 0 && lomvadric_done(&state, 0) == 0, "advance and done");
    expect(same(&state, &after_done), "every number in its place");
    expect(lomvadric_advance(&state, 0) == 0 && same(&state, &after_done), "no tick changes nothing");
    state = fresh_of(3, 4);
    expect(lomvadric_advance(&state, UINT64_C(1) << 40) == 0 && state.now == UINT64_C(1) << 40, "the last tick of all");
    expect(lomvadric_advance(&state, 0) == 0, "no tick more");
    refuses(lomvadric_advance, state, 1, LOMVADRIC_END_OF_TIME);
}

/* A budget of 1 makes every tick a portion: a walk of 100 shows 64 of them, and then the rest. */
static void check_walks(void)
{
    struct lomvadric_state state = fresh_of(1, 1), twin;
    expect(lomvadric_arrive(&state, 0) == 0, "arrive");
    twin = state;
    struct lomvadric_walked walked = lomvadric_walk(&state, 100);
    expect(walked.refusal == 0 && walked.shown == 64 && walked.left == 36, "a walk of 64 portions");
    expect(walked.lines[63].first == 63 && walked.lines[63].end == 64, "the last one that has a place");
    expect(walked.lines[63].used.kind == LOMVADRIC_OWN && walked.lines[63].used.guest == 0, "on the guest's own budget");
    walked = lomvadric_walk(&state, walked.left);
    expect(walked.refusal == 0 && walked.shown == 36 && walked.left == 0, "the rest of the walk");
    expect(walked.lines[35].end == 100 && walked.lines[36].end == 0, "zeros behind the last portion");
    expect(lomvadric_advance(&twin, 100) == 0 && same(&state, &twin), "walks and an advance come to the same");
}

static void check_refused_changes(void)
{
    struct lomvadric_state not_sound = after_done, far = fresh_of(1, 1000000);
    not_sound.now = UINT64_C(1) << 41;
    far.guests[0].deadline = UINT64_C(1) << 44;
    refuses(arrive, not_sound, 16, LOMVADRIC_NOT_SOUND);
    refuses(done, not_sound, 0, LOMVADRIC_NOT_SOUND);
    refuses(lomvadric_advance, not_sound, 0, LOMVADRIC_NOT_SOUND);
    refuses(walk, not_sound, 1, LOMVADRIC_NOT_SOUND);
    refuses(arrive, after_done, 2, LOMVADRIC_NO_SUCH_GUEST);
    refuses(done, after_done, UINT64_MAX, LOMVADRIC_NO_SUCH_GUEST);
    refuses(done, after_done, 0, LOMVADRIC_GUEST_IDLE);
    refuses(arrive, with_jobs(255), 0, LOMVADRIC_JOBS_FULL);
    refuses(arrive, with_spares(64), 0, LOMVADRIC_NO_ROOM);
    refuses(arrive, far, 0, LOMVADRIC_DEADLINE_TOO_FAR);
    refuses(lomvadric_advance, after_done, UINT64_MAX, LOMVADRIC_END_OF_TIME);
    refuses(walk, after_done, UINT64_C(1) << 40, LOMVADRIC_END_OF_TIME);
}

/* ---- questions */

static void expect_next(const struct lomvadric_state *state, struct lomvadric_next expected, const char *what)
{
    struct lomvadric_next next = lomvadric_ask(state);
    expect(next.refusal == expected.refusal && next.deadline == expected.deadline && next.span == expected.span, what);
    expect(next.used.kind == expected.used.kind && next.used.guest == expected.used.guest, what);
    expect(next.used.owner == expected.used.owner, what);
}

static void expect_numbers(const struct lomvadric_state *state, struct lomvadric_actives expected, struct lomvadric_distance margin)
{
    struct lomvadric_actives active = lomvadric_active(state);
    struct lomvadric_distance distance = lomvadric_margin(state, 0);
    expect(active.refusal == expected.refusal && active.mask == expected.mask && active.actives == expected.actives, "who is active");
    expect(distance.refusal == margin.refusal && distance.ticks == margin.ticks, "margin");
}

static void check_questions(void)
{
    const struct lomvadric_next on_spare = {0, {LOMVADRIC_SPARE, 1, 0}, 4, 1}, burns = {0, {LOMVADRIC_BURN, 0, 0}, 1, 1};
    const struct lomvadric_next on_own = {0, {LOMVADRIC_OWN, 0, 0}, 4, 3}, nothing = {0, {LOMVADRIC_NOTHING, 0, 0}, 0, 0};
    const struct lomvadric_next refused = {LOMVADRIC_NOT_SOUND, {LOMVADRIC_NOTHING, 0, 0}, 0, 0};
    struct lomvadric_state own = with_jobs(1), one_spare = with_spares(1), empty = fresh_of(3, 4), zeros;
    memset(&zeros, 0, sizeof zeros);
    expect_next(&after_done, on_spare, "ask: a guest on another's spare");
    expect_next(&own, on_own, "ask: a guest on its own budget");
    expect_next(&one_spare, burns, "ask: a spare burns");
    expect_next(&empty, nothing, "ask: nothing to do");
    expect_next(&zeros, refused, "ask: not sound");
    expect_numbers(&after_done, (struct lomvadric_actives){0, 2, 1}, (struct lomvadric_distance){0, 2});
    expect_numbers(&zeros, (struct lomvadric_actives){1, 0, 0}, (struct lomvadric_distance){1, 0});
    expect(lomvadric_advance(&empty, 5) == 0, "five empty ticks");
    expect_numbers(&empty, (struct lomvadric_actives){0, 0, 0}, (struct lomvadric_distance){0, -5});
    expect(lomvadric_margin(&after_done, 2).refusal == LOMVADRIC_NO_SUCH_GUEST, "margin: no such guest");
    expect(lomvadric_margin(&after_done, 2).ticks == 0, "margin: 0 after a refusal");
}

/* ---- tables and images */

enum { FRONT = 3, LENGTH = FRONT + 28, ENOUGH = 40 };

/* The two guests behind three other bytes. */
static const uint8_t good_image[LENGTH] = {
    9, 9, 9, 3, 0, 0, 0, 4, 0, 0, 0, 2, 0, 0, 0, 8, 0, 0, 0, 8, 0, 0, 0, FRONT, 0, 0, 0, 2, 0, 1, 0,
};

/* The image with one byte changed, cut to so many bytes. */
static void refuses_image(size_t place, uint8_t byte, size_t length, uint32_t refusal)
{
    uint8_t image[LENGTH];
    struct lomvadric_table table = two_guests;
    memcpy(image, good_image, sizeof image);
    image[place] = byte;
    struct lomvadric_part part = lomvadric_entries(image, length);
    expect(lomvadric_check_image(image, length) == refusal, lomvadric_refusal_text(refusal));
    expect(lomvadric_read_image(&table, image, length) == refusal, lomvadric_refusal_text(refusal));
    expect(memcmp(&table, &no_table, sizeof table) == 0, "a refused table is all zeros");
    expect(part.refusal == refusal && part.offset == 0 && part.length == 0, "the empty part at the front");
}

static void check_images(void)
{
    struct lomvadric_table table;
    struct lomvadric_part part = lomvadric_entries(good_image, LENGTH);
    memset(&table, 0xa5, sizeof table);
    expect(lomvadric_check_image(good_image, LENGTH) == 0, "a good image");
    expect(lomvadric_read_image(&table, good_image, LENGTH) == 0, "a good image, read");
    expect(memcmp(&table, &two_guests, sizeof table) == 0, "its table");
    expect(part.refusal == 0 && part.offset == FRONT && part.length == 16, "where its entries lie");
    refuses_image(0, 9, 0, LOMVADRIC_IMAGE_LENGTH);
    refuses_image(0, 9, 19, LOMVADRIC_IMAGE_LENGTH);
    refuses_image(LENGTH - 2, 2, LENGTH, LOMVADRIC_UNKNOWN_EDITION);
    refuses_image(LENGTH - 4, 0, LENGTH, LOMVADRIC_GUEST_COUNT);
    refuses_image(LENGTH - 8, FRONT + 1, LENGTH, LOMVADRIC_WRONG_OFFSET);
    refuses_image(LENGTH - 12, 0, LENGTH, LOMVADRIC_FRAME_RANGE);
    refuses_image(FRONT, 0, LENGTH, LOMVADRIC_BAD_GUEST);
    refuses_image(FRONT + 8, 3, LENGTH, LOMVADRIC_SHARE_TOO_LARGE);
}

/* A table that fresh and write_image refuse alike. */
static void refuses_table(struct lomvadric_table table, uint32_t refusal)
{
    struct lomvadric_state state = after_done, zeros;
    uint8_t buffer[ENOUGH], before[ENOUGH];
    memset(&zeros, 0, sizeof zeros);
    memset(buffer, 0xa5, sizeof buffer);
    memcpy(before, buffer, sizeof before);
    expect(lomvadric_fresh(&state, &table) == refusal, lomvadric_refusal_text(refusal));
    expect(same(&state, &zeros), "a refused fresh state is all zeros");
    expect(lomvadric_write_image(&table, buffer, sizeof buffer) == refusal, lomvadric_refusal_text(refusal));
    expect(memcmp(buffer, before, sizeof buffer) == 0, "a refused buffer keeps its bytes");
}

static void check_tables(void)
{
    struct lomvadric_table no_guest = two_guests, no_frame = two_guests, bad_guest = two_guests, rest = two_guests, share = two_guests;
    no_guest.count = 17;
    no_frame.frame = 0;
    bad_guest.entries[1].period = 3;
    rest.entries[2].budget = 1;
    share.entries[1].budget = 3;
    refuses_table(no_guest, LOMVADRIC_GUEST_COUNT);
    refuses_table(no_frame, LOMVADRIC_FRAME_RANGE);
    refuses_table(bad_guest, LOMVADRIC_BAD_GUEST);
    refuses_table(rest, LOMVADRIC_BAD_GUEST);
    refuses_table(share, LOMVADRIC_SHARE_TOO_LARGE);
}

static void check_writing(void)
{
    uint8_t buffer[ENOUGH], before[ENOUGH];
    struct lomvadric_table table;
    memset(buffer, 0xa5, sizeof buffer);
    memcpy(before, buffer, sizeof before);
    expect(lomvadric_write_image(&two_guests, buffer, 27) == LOMVADRIC_BUFFER_SHORT, "a short buffer");
    expect(memcmp(buffer, before, sizeof buffer) == 0, "a short buffer keeps its bytes");
    expect(lomvadric_write_image(&two_guests, buffer, sizeof buffer) == 0, "written");
    expect(memcmp(buffer, good_image + FRONT, 16) == 0 && buffer[20] == 0 && buffer[26] == 1, "its entries, its offset, its edition");
    expect(memcmp(buffer + 28, before + 28, sizeof buffer - 28) == 0, "the bytes behind it stay");
    expect(lomvadric_read_image(&table, buffer, 28) == 0, "what was written is accepted");
    expect(memcmp(&table, &two_guests, sizeof table) == 0, "and gives the same table");
}

/* ---- texts */

static void check_texts(void)
{
    const char *other = lomvadric_refusal_text(LOMVADRIC_MALFORMED + 1);
    for (uint32_t a = 0; a <= LOMVADRIC_MALFORMED; a++) {
        expect(strcmp(lomvadric_refusal_text(a), other) != 0, "a text for each number");
        for (uint32_t b = 0; b < a; b++) {
            expect(strcmp(lomvadric_refusal_text(a), lomvadric_refusal_text(b)) != 0, "each number has its own text");
        }
    }
    expect(strcmp(lomvadric_refusal_text(UINT32_MAX), other) == 0, "one text for all other numbers");
}

int main(void)
{
    check_changes();
    check_walks();
    check_refused_changes();
    check_questions();
    check_images();
    check_tables();
    check_writing();
    check_texts();
    if (wrong == 0) {
        printf("%d answers as they must be\n", looked_at);
    }
    return wrong == 0 ? 0 : 1;
}
