/* archive.c: answers for liblomvadric.a where it can't be linked with the comparison. Until the input ends it reads a request and writes what the
   archive's functions give. Requests and answers are those of crates/test_answers/src/wire.rt, without the number of requests; where C is told
   something else, compare/src/states/answers.rs has it. One request more is 4, the length of an image and its bytes, for lomvadric_check_image alone. */
#include <stdio.h>
#include <stdlib.h>
#include <string.h>

#include "lomvadric.h"

/* A longer image is not copied, only read. */
#define MOST_COPIED 1000000
/* What stands before the call in a place that it fills. */
#define LEFTOVER 0xA5

static void need(int holds, const char *what)
{
    if (!holds) {
        fprintf(stderr, "archive: %s\n", what);
        exit(1);
    }
}

/* Gives 0 where the input ends before the number. */
static int read_number_or_end(uint64_t *number)
{
    uint8_t bytes[8];
    size_t count = fread(bytes, 1, sizeof bytes, stdin);
    *number = 0;
    for (size_t i = sizeof bytes; i > 0; i--) {
        *number = *number << 8 | bytes[i - 1];
    }
    need(count == 0 || count == sizeof bytes, "the input ends inside a number");
    return count != 0;
}

static uint64_t read_number(void)
{
    uint64_t number;
    need(read_number_or_end(&number), "the input ends inside a request");
    return number;
}

static void write_bytes(const uint8_t *bytes, size_t count)
{
    need(fwrite(bytes, 1, count, stdout) == count, "the answer can't be written");
}

static void write_number(uint64_t number)
{
    uint8_t bytes[8];
    for (size_t i = 0; i < sizeof bytes; i++) {
        bytes[i] = (uint8_t)(number >> 8 * i);
    }
    write_bytes(bytes, sizeof bytes);
}

static void read_table(struct lomvadric_table *table)
{
    table->frame = read_number();
    table->count = read_number();
    for (size_t i = 0; i < LOMVADRIC_GUEST_PLACES; i++) {
        table->entries[i].budget = read_number();
        table->entries[i].period = read_number();
    }
}

static void write_table(const struct lomvadric_table *table)
{
    write_number(table->frame);
    write_number(table->count);
    for (size_t i = 0; i < LOMVADRIC_GUEST_PLACES; i++) {
        write_number(table->entries[i].budget);
        write_number(table->entries[i].period);
    }
}

static void read_guest(struct lomvadric_guest *guest)
{
    guest->jobs = read_number();
    guest->current = read_number();
    guest->deadline = read_number();
    guest->own = read_number();
    guest->borrowed = read_number();
}

static void write_guest(const struct lomvadric_guest *guest)
{
    write_number(guest->jobs);
    write_number(guest->current);
    write_number(guest->deadline);
    write_number(guest->own);
    write_number(guest->borrowed);
}

static void read_spares(struct lomvadric_spare *spares)
{
    for (size_t i = 0; i < LOMVADRIC_SPARE_PLACES; i++) {
        spares[i].deadline = read_number();
        spares[i].owner = read_number();
        spares[i].capacity = read_number();
    }
}

static void write_spares(const struct lomvadric_spare *spares)
{
    for (size_t i = 0; i < LOMVADRIC_SPARE_PLACES; i++) {
        write_number(spares[i].deadline);
        write_number(spares[i].owner);
        write_number(spares[i].capacity);
    }
}

static void read_state(struct lomvadric_state *state)
{
    read_table(&state->table);
    for (size_t i = 0; i < LOMVADRIC_GUEST_PLACES; i++) {
        read_guest(&state->guests[i]);
    }
    read_spares(state->spares);
    state->now = read_number();
    state->listed = read_number();
    state->burned = read_number();
    state->empty = read_number();
}

/* The number of a call that changes a state, and the state behind it. */
static void write_stepped(uint32_t refusal, const struct lomvadric_state *state)
{
    write_number(refusal);
    write_table(&state->table);
    for (size_t i = 0; i < LOMVADRIC_GUEST_PLACES; i++) {
        write_guest(&state->guests[i]);
    }
    write_spares(state->spares);
    write_number(state->now);
    write_number(state->listed);
    write_number(state->burned);
    write_number(state->empty);
}

static void write_use(const struct lomvadric_use *used)
{
    write_number(used->kind);
    write_number(used->guest);
    write_number(used->owner);
}

static void answer_walk(const struct lomvadric_state *state, uint64_t ticks)
{
    struct lomvadric_state changed = *state;
    struct lomvadric_walked walked = lomvadric_walk(&changed, ticks);
    write_stepped(walked.refusal, &changed);
    write_number(walked.left);
    write_number(walked.shown);
    for (size_t i = 0; i < LOMVADRIC_LINE_PLACES; i++) {
        write_number(walked.lines[i].first);
        write_number(walked.lines[i].end);
        write_use(&walked.lines[i].used);
    }
}

/* The calls that only read the state. */
static void answer_questions(const struct lomvadric_state *state, size_t guest)
{
    struct lomvadric_next next = lomvadric_ask(state);
    write_number(next.refusal);
    write_use(&next.used);
    write_number(next.deadline);
    write_number(next.span);
    struct lomvadric_actives actives = lomvadric_active(state);
    write_number(actives.refusal);
    write_number(actives.mask);
    write_number(actives.actives);
    struct lomvadric_distance distance = lomvadric_margin(state, guest);
    write_number(distance.refusal);
    write_number((uint64_t)distance.ticks);
}

static void answer_state(void)
{
    struct lomvadric_state state;
    read_state(&state);
    size_t guest = read_number();
    uint64_t ticks = read_number();
    struct lomvadric_state changed = state;
    write_stepped(lomvadric_arrive(&changed, guest), &changed);
    changed = state;
    write_stepped(lomvadric_done(&changed, guest), &changed);
    changed = state;
    write_stepped(lomvadric_advance(&changed, ticks), &changed);
    answer_walk(&state, ticks);
    changed = state;
    answer_questions(&changed, guest);
    need(memcmp(&changed, &state, sizeof state) == 0, "a state that may only be read was changed");
}

/* Never NULL, though nothing is in it: the archive's functions ask for that. */
static uint8_t *place_for(size_t length)
{
    uint8_t *place = malloc(length > 0 ? length : 1);
    need(place != NULL, "there is no room for the bytes");
    return place;
}

static void answer_table(void)
{
    struct lomvadric_table table, before;
    struct lomvadric_state state;
    read_table(&table);
    before = table;
    size_t length = read_number();
    uint8_t *buffer = place_for(length);
    memset(buffer, (int)read_number(), length);
    memset(&state, LEFTOVER, sizeof state);
    write_stepped(lomvadric_fresh(&state, &table), &state);
    write_number(lomvadric_write_image(&table, buffer, length));
    write_number(length);
    write_bytes(buffer, length);
    need(memcmp(&table, &before, sizeof table) == 0, "a table that may only be read was changed");
    free(buffer);
}

static void answer_check(const uint8_t *image, size_t length)
{
    write_number(lomvadric_check_image(image, length));
}

static void answer_image(const uint8_t *image, size_t length)
{
    struct lomvadric_table table;
    memset(&table, LEFTOVER, sizeof table);
    write_number(lomvadric_read_image(&table, image, length));
    write_table(&table);
    answer_check(image, length);
    struct lomvadric_part part = lomvadric_entries(image, length);
    write_number(part.refusal);
    write_number(part.offset);
    write_number(part.length);
}

/* The image lies in a place of exactly its size, and is held to what it was before. */
static void with_image(void answer(const uint8_t *image, size_t length))
{
    size_t length = read_number();
    size_t copied = length < MOST_COPIED ? length : 0;
    uint8_t *image = place_for(length);
    uint8_t *before = place_for(copied);
    need(fread(image, 1, length, stdin) == length, "the input ends inside an image");
    memcpy(before, image, copied);
    answer(image, length);
    need(memcmp(before, image, copied) == 0, "the image was changed");
    free(before);
    free(image);
}

int main(void)
{
    uint64_t kind;
    while (read_number_or_end(&kind)) {
        switch (kind) {
            case 1: answer_state(); break;
            case 2: answer_table(); break;
            case 3: with_image(answer_image); break;
            case 4: with_image(answer_check); break;
            default: need(0, "there is no such request");
        }
        need(fflush(stdout) == 0, "the answer can't be written");
    }
    return 0;
}
