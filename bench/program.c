/* The listing program in plain C, to measure the others against: it turns an input script into its listing. */

#include <stdbool.h>
#include <stddef.h>
#include <stdint.h>
#include <stdio.h>
#include <stdlib.h>
#include <string.h>

enum {
    MOST_INPUT = 65536,
    MOST_DIGITS = 13,
    MOST_NUMBERS = 2,
    MOST_GUESTS = 16,
    MOST_SPARES = 64,
    MOST_JOBS = 255,
    LONGEST_FRAME = 1000000,
    OUTPUT_SIZE = 65536,
    /* Two ticks of 13 digits, a guest and an owner of 2, a letter, three spaces and a line feed are 35. */
    LONGEST_LINE = 40
};

static const uint64_t END_OF_TIME = (uint64_t)1 << 40;
static const uint64_t FURTHEST_WAKE_DEADLINE = (uint64_t)1 << 44;

enum refusal {
    ACCEPTED = 0,
    NO_SUCH_GUEST = 2,
    DONE_WHILE_IDLE = 3,
    JOBS_FULL = 4,
    NO_ROOM_FOR_SPARE = 5,
    DEADLINE_TOO_FAR = 6,
    PAST_END_OF_TIME = 7,
    BAD_GUEST_COUNT = 10,
    BAD_FRAME = 12,
    BAD_GUEST = 13,
    SHARES_TOO_GREAT = 14,
    MALFORMED_INPUT = 16
};

struct guest {
    uint64_t budget;
    uint64_t period;
    uint64_t jobs;
    uint64_t current_budget;
    uint64_t deadline;
};

struct spare {
    uint64_t owner;
    uint64_t capacity;
    uint64_t deadline;
};

/* The spares stand with the first one last: dropping a used one is then only counting down. */
struct state {
    uint64_t now;
    uint64_t frame;
    size_t guest_count;
    size_t active_count;
    size_t spare_count;
    struct guest guests[MOST_GUESTS];
    struct spare spares[MOST_SPARES];
};

struct reader {
    const unsigned char *place;
    const unsigned char *end;
};

struct line {
    unsigned char letter;
    uint64_t numbers[MOST_NUMBERS];
};

static char output[OUTPUT_SIZE];
static size_t output_used;

/* ---- Output ---- */

/* Without an output there is nothing left to do, and an advance may have very many portions to go. */
static void flush_output(void)
{
    if (fwrite(output, 1, output_used, stdout) != output_used) {
        exit(EXIT_FAILURE);
    }
    output_used = 0;
}

static char *begin_line(void)
{
    if (output_used > OUTPUT_SIZE - LONGEST_LINE) {
        flush_output();
    }
    return output + output_used;
}

static void end_line(char *place)
{
    *place++ = '\n';
    output_used = (size_t)(place - output);
}

static char *put_number(char *place, uint64_t number)
{
    char digits[MOST_DIGITS];
    size_t first = MOST_DIGITS;
    do {
        digits[--first] = (char)('0' + number % 10);
        number /= 10;
    } while (number > 0);
    memcpy(place, digits + first, MOST_DIGITS - first);
    return place + (MOST_DIGITS - first);
}

static void print_refusal(enum refusal refusal)
{
    char *place = begin_line();
    *place++ = '!';
    *place++ = ' ';
    end_line(put_number(place, (uint64_t)refusal));
}

static void print_end(uint64_t now)
{
    char *place = begin_line();
    memcpy(place, "end ", 4);
    end_line(put_number(place + 4, now));
}

static char *put_ticks(char *place, uint64_t first, uint64_t end)
{
    place = put_number(place, first);
    *place++ = ' ';
    place = put_number(place, end);
    *place++ = ' ';
    return place;
}

static void print_run(uint64_t first, uint64_t end, uint64_t guest, uint64_t owner, char source)
{
    char *place = put_ticks(begin_line(), first, end);
    place = put_number(place, guest);
    *place++ = ' ';
    place = put_number(place, owner);
    *place++ = source;
    end_line(place);
}

static void print_burn(uint64_t first, uint64_t end, uint64_t owner)
{
    char *place = put_ticks(begin_line(), first, end);
    *place++ = '-';
    *place++ = ' ';
    place = put_number(place, owner);
    *place++ = 's';
    end_line(place);
}

static void print_nothing(uint64_t first, uint64_t end)
{
    char *place = put_ticks(begin_line(), first, end);
    memcpy(place, "- -", 3);
    end_line(place + 3);
}

/* ---- Input lines ---- */

static bool take_byte(struct reader *reader, unsigned char byte)
{
    if (reader->place == reader->end || *reader->place != byte) {
        return false;
    }
    reader->place++;
    return true;
}

static bool at_digit(const struct reader *reader)
{
    return reader->place < reader->end && *reader->place >= '0' && *reader->place <= '9';
}

/* 13 digits have room in 64 bits, so the bound on the digits is all that keeps the value from wrapping. */
static bool take_number(struct reader *reader, uint64_t *number)
{
    const unsigned char *first = reader->place;
    uint64_t value = 0;
    while (at_digit(reader) && reader->place - first < MOST_DIGITS) {
        value = value * 10 + (uint64_t)(*reader->place++ - '0');
    }
    ptrdiff_t length = reader->place - first;
    if (length == 0 || (length > 1 && *first == '0')) {
        return false;
    }
    *number = value;
    return true;
}

/* 0 for a letter that starts no line. */
static size_t numbers_behind(unsigned char letter)
{
    switch (letter) {
    case 'G':
        return 2;
    case 'F':
    case 'A':
    case 'D':
    case 'R':
        return 1;
    default:
        return 0;
    }
}

/* The reader moves on only past a well-formed line, so that a line can be tried and left. */
static bool take_line(struct reader *reader, struct line *line)
{
    struct reader ahead = *reader;
    if (ahead.place == ahead.end) {
        return false;
    }
    line->letter = *ahead.place++;
    size_t count = numbers_behind(line->letter);
    for (size_t index = 0; index < count; index++) {
        if (!take_byte(&ahead, ' ') || !take_number(&ahead, &line->numbers[index])) {
            return false;
        }
    }
    if (count == 0 || !take_byte(&ahead, '\n')) {
        return false;
    }
    *reader = ahead;
    return true;
}

static bool take_line_of(struct reader *reader, unsigned char letter, struct line *line)
{
    bool is_next = reader->place < reader->end && *reader->place == letter;
    return is_next && take_line(reader, line);
}

/* ---- The table ---- */

static bool guest_holds(const struct guest *guest, uint64_t frame)
{
    return guest->budget >= 1 && guest->budget <= guest->period && frame % guest->period == 0;
}

static enum refusal check_table(const struct state *state)
{
    if (state->guest_count == 0 || state->guest_count > MOST_GUESTS) {
        return BAD_GUEST_COUNT;
    }
    if (state->frame == 0 || state->frame > LONGEST_FRAME) {
        return BAD_FRAME;
    }
    uint64_t shares = 0;
    for (size_t index = 0; index < state->guest_count; index++) {
        const struct guest *guest = &state->guests[index];
        if (!guest_holds(guest, state->frame)) {
            return BAD_GUEST;
        }
        shares += guest->budget * (state->frame / guest->period);
    }
    return shares > state->frame ? SHARES_TOO_GREAT : ACCEPTED;
}

/* A guest too many has no place; the count alone has the table refused. */
static void add_guest(struct state *state, uint64_t budget, uint64_t period)
{
    if (state->guest_count < MOST_GUESTS) {
        struct guest *guest = &state->guests[state->guest_count];
        guest->budget = budget;
        guest->period = period;
    }
    state->guest_count++;
}

static enum refusal take_table(struct reader *reader, struct state *state)
{
    struct line line;
    if (!take_line_of(reader, 'F', &line)) {
        return MALFORMED_INPUT;
    }
    state->frame = line.numbers[0];
    while (take_line_of(reader, 'G', &line)) {
        add_guest(state, line.numbers[0], line.numbers[1]);
    }
    return check_table(state);
}

/* ---- Arrive and done ---- */

static enum refusal wake(struct state *state, struct guest *guest)
{
    /* Room is asked for now, so that the later completion finds a place for its spare. */
    if (state->spare_count + state->active_count == MOST_SPARES) {
        return NO_ROOM_FOR_SPARE;
    }
    uint64_t from = guest->deadline > state->now ? guest->deadline : state->now;
    if (from + guest->period > FURTHEST_WAKE_DEADLINE) {
        return DEADLINE_TOO_FAR;
    }
    guest->jobs = 1;
    guest->current_budget = guest->budget;
    guest->deadline = from + guest->period;
    state->active_count++;
    return ACCEPTED;
}

static enum refusal arrive(struct state *state, uint64_t number)
{
    if (number >= state->guest_count) {
        return NO_SUCH_GUEST;
    }
    struct guest *guest = &state->guests[number];
    if (guest->jobs == 0) {
        return wake(state, guest);
    }
    if (guest->jobs == MOST_JOBS) {
        return JOBS_FULL;
    }
    guest->jobs++;
    return ACCEPTED;
}

static bool comes_before(const struct spare *one, const struct spare *other)
{
    if (one->deadline != other->deadline) {
        return one->deadline < other->deadline;
    }
    return one->owner < other->owner;
}

static void insert_spare(struct state *state, struct spare spare)
{
    size_t place = state->spare_count;
    while (place > 0 && comes_before(&state->spares[place - 1], &spare)) {
        state->spares[place] = state->spares[place - 1];
        place--;
    }
    state->spares[place] = spare;
    state->spare_count++;
}

static void fall_idle(struct state *state, uint64_t number)
{
    struct guest *guest = &state->guests[number];
    if (guest->current_budget > 0) {
        struct spare spare = {number, guest->current_budget, guest->deadline};
        insert_spare(state, spare);
        guest->current_budget = 0;
    }
    state->active_count--;
}

static enum refusal done(struct state *state, uint64_t number)
{
    if (number >= state->guest_count) {
        return NO_SUCH_GUEST;
    }
    struct guest *guest = &state->guests[number];
    if (guest->jobs == 0) {
        return DONE_WHILE_IDLE;
    }
    guest->jobs--;
    if (guest->jobs == 0) {
        fall_idle(state, number);
    }
    return ACCEPTED;
}

/* ---- Advance ---- */

/* One guest's renewal changes no other guest, so renewing and choosing the earliest need a single pass. */
static struct guest *renew_and_choose(struct state *state)
{
    struct guest *earliest = NULL;
    for (size_t index = 0; index < state->guest_count; index++) {
        struct guest *guest = &state->guests[index];
        if (guest->jobs == 0) {
            continue;
        }
        if (guest->current_budget == 0) {
            guest->current_budget = guest->budget;
            guest->deadline += guest->period;
        }
        if (earliest == NULL || guest->deadline < earliest->deadline) {
            earliest = guest;
        }
    }
    return earliest;
}

static struct spare *first_spare(struct state *state)
{
    return state->spare_count == 0 ? NULL : &state->spares[state->spare_count - 1];
}

/* Takes as much as is left in the capacity or in the advance, whichever is less, and moves the tick on. */
static void charge(struct state *state, uint64_t *capacity, uint64_t end)
{
    uint64_t left = end - state->now;
    uint64_t ticks = *capacity < left ? *capacity : left;
    *capacity -= ticks;
    state->now += ticks;
}

/* Gives the owner, because a used-up spare is gone afterwards. */
static uint64_t charge_first_spare(struct state *state, uint64_t end)
{
    struct spare *spare = first_spare(state);
    uint64_t owner = spare->owner;
    charge(state, &spare->capacity, end);
    if (spare->capacity == 0) {
        state->spare_count--;
    }
    return owner;
}

static void run_guest(struct state *state, struct guest *guest, uint64_t end)
{
    uint64_t first = state->now;
    uint64_t number = (uint64_t)(guest - state->guests);
    const struct spare *spare = first_spare(state);
    if (spare != NULL && spare->deadline <= guest->deadline) {
        uint64_t owner = charge_first_spare(state, end);
        print_run(first, state->now, number, owner, 's');
    } else {
        charge(state, &guest->current_budget, end);
        print_run(first, state->now, number, number, 'o');
    }
}

static void stay_idle(struct state *state, uint64_t end)
{
    uint64_t first = state->now;
    if (state->spare_count > 0) {
        uint64_t owner = charge_first_spare(state, end);
        print_burn(first, state->now, owner);
    } else {
        state->now = end;
        print_nothing(first, end);
    }
}

/* Within an advance nobody arrives or finishes: once chosen, a portion goes on until its capacity is used. */
static enum refusal advance(struct state *state, uint64_t ticks)
{
    if (ticks > END_OF_TIME - state->now) {
        return PAST_END_OF_TIME;
    }
    uint64_t end = state->now + ticks;
    while (state->now < end) {
        struct guest *guest = renew_and_choose(state);
        if (guest != NULL) {
            run_guest(state, guest, end);
        } else {
            stay_idle(state, end);
        }
    }
    return ACCEPTED;
}

/* ---- The program ---- */

static enum refusal carry_out_line(struct state *state, const struct line *line)
{
    switch (line->letter) {
    case 'A':
        return arrive(state, line->numbers[0]);
    case 'D':
        return done(state, line->numbers[0]);
    case 'R':
        return advance(state, line->numbers[0]);
    default:
        return MALFORMED_INPUT;
    }
}

/* Gives the refusal that stops the program, or none. */
static enum refusal carry_out(struct reader *reader, struct state *state)
{
    enum refusal refusal = take_table(reader, state);
    if (refusal != ACCEPTED) {
        return refusal;
    }
    while (reader->place < reader->end) {
        struct line line;
        refusal = take_line(reader, &line) ? carry_out_line(state, &line) : MALFORMED_INPUT;
        if (refusal == MALFORMED_INPUT) {
            return refusal;
        }
        if (refusal != ACCEPTED) {
            print_refusal(refusal);
        }
    }
    return ACCEPTED;
}

int main(void)
{
    /* One byte more than is allowed is enough to tell that there is too much. */
    static unsigned char input[MOST_INPUT + 1];
    static struct state state;
    setvbuf(stdout, NULL, _IONBF, 0);
    size_t length = fread(input, 1, sizeof input, stdin);
    struct reader reader = {input, input + length};
    enum refusal refusal = length > MOST_INPUT ? MALFORMED_INPUT : carry_out(&reader, &state);
    if (refusal != ACCEPTED) {
        print_refusal(refusal);
    } else {
        print_end(state.now);
    }
    flush_output();
    return EXIT_SUCCESS;
}
