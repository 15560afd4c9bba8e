/* lomvadric.h: Lomvadric from C: a hypervisor's loop asks who runs next and tells what happened, on a state behind a pointer; boot code
 * checks, reads and writes table images.
 *
 * What whoever links liblomvadric.a (x86-64 Linux) must have:
 *  - memcpy and memset, as C has them; nothing else is called, so a program without a C library links too (examples/freestanding.c);
 *  - the calling convention of System V, with its SSE registers, xmm0 to xmm15, and its red zone, the 128 bytes below the stack pointer.
 *    Code that must leave these registers alone, such as an interrupt handler, saves them before a call;
 *  - as much stack as LOMVADRIC_STACK_.. below says.
 * The archive has no variables of its own: what a call needs is in its arguments, so calls on different states from several threads don't
 * disturb one another.
 */
#ifndef LOMVADRIC_H
#define LOMVADRIC_H

#include <stddef.h>
#include <stdint.h>

#ifdef __cplusplus
extern "C" {
#endif

#define LOMVADRIC_VERSION_MAJOR 0
#define LOMVADRIC_VERSION_MINOR 2
#define LOMVADRIC_VERSION_PATCH 3
#define LOMVADRIC_VERSION "0.2.3"

/* The places of a table, of a list of spares and of a walk. */
#define LOMVADRIC_GUEST_PLACES 16
#define LOMVADRIC_SPARE_PLACES 64
#define LOMVADRIC_LINE_PLACES 64

/*
 * The bytes of stack that each call takes below its caller's, return address included, with a memcpy and a memset that need no more than
 * theirs. They were measured and rounded up; no theorem says them. tests/stack.c measures them anew, and fails where a call takes more.
 */
#define LOMVADRIC_STACK_FRESH 3072
#define LOMVADRIC_STACK_ARRIVE 15360
#define LOMVADRIC_STACK_DONE 11264
#define LOMVADRIC_STACK_ADVANCE 36864
#define LOMVADRIC_STACK_WALK 50176
#define LOMVADRIC_STACK_ASK 6144
#define LOMVADRIC_STACK_ACTIVE 6144
#define LOMVADRIC_STACK_MARGIN 6144
#define LOMVADRIC_STACK_CHECK_IMAGE 2048
#define LOMVADRIC_STACK_READ_IMAGE 3072
#define LOMVADRIC_STACK_ENTRIES 2048
#define LOMVADRIC_STACK_WRITE_IMAGE 1024

/* The numbers of refusal, each with its exact condition. Where several apply, the smallest is given. 0 is no refusal. */
enum lomvadric_refusal {
    LOMVADRIC_NOT_SOUND = 1,        /* the state is not sound */
    LOMVADRIC_NO_SUCH_GUEST = 2,    /* guest number is n or more */
    LOMVADRIC_GUEST_IDLE = 3,       /* done for an idle guest */
    LOMVADRIC_JOBS_FULL = 4,        /* arrive at a guest with 255 jobs */
    LOMVADRIC_NO_ROOM = 5,          /* arrive at an idle guest, spares plus active guests = 64 */
    LOMVADRIC_DEADLINE_TOO_FAR = 6, /* arrive at an idle guest, its new deadline would pass 2^44 */
    LOMVADRIC_END_OF_TIME = 7,      /* now + k would pass 2^40 */
    LOMVADRIC_IMAGE_LENGTH = 8,     /* image shorter than 20 or longer than 65,536 */
    LOMVADRIC_UNKNOWN_EDITION = 9,  /* edition is not 1 */
    LOMVADRIC_GUEST_COUNT = 10,     /* n is 0 or above 16 */
    LOMVADRIC_WRONG_OFFSET = 11,    /* offset + 8n + 12 is not the image's length (an exact sum: it never wraps) */
    LOMVADRIC_FRAME_RANGE = 12,     /* H is 0 or above 1,000,000 */
    LOMVADRIC_BAD_GUEST = 13,       /* some guest breaks 1 <= Q <= T or T does not divide H,
                                       or an unused place of the table is not zero */
    LOMVADRIC_SHARE_TOO_LARGE = 14, /* the shares add up to more than H */
    LOMVADRIC_BUFFER_SHORT = 15,    /* write buffer shorter than 8n + 12 */
    LOMVADRIC_MALFORMED = 16        /* a line of program input is malformed; no call from C gives it */
};

/* What a number of refusal says, for a reader: a text for 0 to 16, and one for every other number. */
static inline const char *lomvadric_refusal_text(uint32_t refusal)
{
    static const char *const texts[] = {
        "nothing was refused",
        "the state is not sound",
        "there is no guest with this number",
        "the guest is idle, so it has no job that could be done",
        "the guest has 255 waiting jobs already",
        "spares and active guests take up all 64 places",
        "the guest's new deadline would pass 2^44",
        "time would pass tick 2^40",
        "the image is shorter than 20 or longer than 65,536 bytes",
        "the edition is not 1",
        "n is 0 or above 16",
        "offset + 8n + 12 is not the image's length",
        "H is 0 or above 1,000,000",
        "some guest breaks 1 <= Q <= T, or its T does not divide H, or an unused place of the table is not zero",
        "the shares add up to more than H",
        "the buffer is shorter than 8n + 12 bytes",
        "a line of input is malformed",
    };
    return refusal < sizeof texts / sizeof texts[0] ? texts[refusal] : "this number is no refusal of Lomvadric's";
}

/* A guest's budget Q and period T, in ticks. */
struct lomvadric_entry {
    uint64_t budget;
    uint64_t period;
};

/* A frame H and the entries of n guests, n being `count`; the places behind them are zero. */
struct lomvadric_table {
    uint64_t frame;
    size_t count;
    struct lomvadric_entry entries[LOMVADRIC_GUEST_PLACES];
};

/* What changes of a guest: waiting jobs (above 0 it is active, with 0 idle), what is left of its budget, its deadline, and two
   tallies: ticks run on its own budget, ticks run on a spare. */
struct lomvadric_guest {
    uint64_t jobs;
    uint64_t current;
    uint64_t deadline;
    uint64_t own;
    uint64_t borrowed;
};

/* A spare: what its owner left of a budget. */
struct lomvadric_spare {
    uint64_t deadline;
    size_t owner;
    uint64_t capacity;
};

/* The whole state, without padding. The first `listed` spares are in use; the processor's two tallies are idle ticks that burned a spare
   and idle ticks with nothing to burn. C may read every number at any time. It need not write any: lomvadric_fresh makes a state, and
   whatever calls are made and refused on it, it stays sound. A state that was changed otherwise is tested at the next call. */
struct lomvadric_state {
    struct lomvadric_table table;
    uint64_t now;
    struct lomvadric_guest guests[LOMVADRIC_GUEST_PLACES];
    size_t listed;
    struct lomvadric_spare spares[LOMVADRIC_SPARE_PLACES];
    uint64_t burned;
    uint64_t empty;
};

/* What a tick uses. */
enum lomvadric_kind {
    LOMVADRIC_NOTHING = 0, /* nobody is active and there is no spare: guest and owner are 0 */
    LOMVADRIC_OWN = 1,     /* a guest runs on its own budget: owner is the guest */
    LOMVADRIC_SPARE = 2,   /* a guest runs on a spare: owner is who left it, which may be the guest itself */
    LOMVADRIC_BURN = 3     /* nobody is active and a spare burns: guest is 0, owner is who left it */
};

struct lomvadric_use {
    uint32_t kind;
    size_t guest;
    size_t owner;
};

/* What the next tick would do. `deadline` is the portion's: the guest's or the spare's. `span` is the longest advance that stays on the
   portion if no other call comes; it is at least 1. Both are 0 where there is nothing to do. */
struct lomvadric_next {
    uint32_t refusal;
    struct lomvadric_use used;
    uint64_t deadline;
    uint64_t span;
};

/* Bit i of the mask stands for guest i; `actives` is the number of its ones. */
struct lomvadric_actives {
    uint32_t refusal;
    uint32_t mask;
    uint32_t actives;
};

/* A guest's deadline less the present tick: below zero for an idle guest whose deadline has passed. */
struct lomvadric_distance {
    uint32_t refusal;
    int64_t ticks;
};

/* A portion of a walk: its first tick, the tick that it ends at, and what it used. */
struct lomvadric_line {
    uint64_t first;
    uint64_t end;
    struct lomvadric_use used;
};

/* The first portions of an advance, `shown` of them and then zeros, and the ticks that are left to walk. */
struct lomvadric_walked {
    uint32_t refusal;
    uint64_t left;
    size_t shown;
    struct lomvadric_line lines[LOMVADRIC_LINE_PLACES];
};

/* Where the entries lie in the caller's image: `length` bytes, 8 for each guest, from `offset` on. */
struct lomvadric_part {
    uint32_t refusal;
    size_t offset;
    size_t length;
};

/*
 * For every call: each takes every state, table, image and number, and gives 0 or the smallest number of refusal that applies. A struct that
 * is given back has it in its first field, and after a refusal zeros in all others. A refused call leaves a state or a buffer as it was; only
 * lomvadric_fresh and lomvadric_read_image write zeros then.
 *
 * What the caller owes:
 *  - no pointer is NULL, also where a length is 0: then nothing is read or written through it;
 *  - a pointer to a struct is aligned as C's types are, and the whole struct can be read there; where the pointer is not to const, it can be
 *    written too, also by a call that is refused: that stores the same bytes again;
 *  - of images and buffers, `length` bytes can be read, of buffers they can be written too. They need no alignment;
 *  - what two pointers of one call point to does not overlap;
 *  - no one changes any of it during the call, and no one reads what the call may write.
 */

/* Makes the state of a table at tick 0, with all guests idle; whatever stood in `state` is gone. Refusals: 10, 12, 13, 14; then the state
   is all zeros, which is not sound. */
uint32_t lomvadric_fresh(struct lomvadric_state *state, const struct lomvadric_table *table);

/* A job arrives at a guest. An idle guest becomes active, with its whole budget and a new deadline. Refusals: 1, 2, 4, 5, 6. */
uint32_t lomvadric_arrive(struct lomvadric_state *state, size_t guest);

/* A job of a guest is done. Where it was the last, the guest goes idle, and what is left of its budget becomes a spare. Refusals: 1, 2, 3. */
uint32_t lomvadric_done(struct lomvadric_state *state, size_t guest);

/* So many ticks pass, 0 or more. The time that a call takes grows with the portions that it goes through: see the README. Refusals: 1, 7. */
uint32_t lomvadric_advance(struct lomvadric_state *state, uint64_t ticks);

/* An advance that shows its portions, 64 at most; the state is the one after those that are shown. For the rest, walk by `left` until that
   is 0. Refusals: 1, 7. */
struct lomvadric_walked lomvadric_walk(struct lomvadric_state *state, uint64_t ticks);

/* What the next tick would do. The state is only read. Refusal: 1. */
struct lomvadric_next lomvadric_ask(const struct lomvadric_state *state);

/* Who is active. The state is only read. Refusal: 1. */
struct lomvadric_actives lomvadric_active(const struct lomvadric_state *state);

/* How far ahead a guest's deadline lies. The state is only read. Refusals: 1, 2. */
struct lomvadric_distance lomvadric_margin(const struct lomvadric_state *state, size_t guest);

/*
 * Checks a table image: gives 0 where it is accepted, or the smallest refusal number, 8 to 14, that applies.
 *
 * An image is, little-endian: anything; n entries of Q (4 bytes) and T (4); then the trailer that ends it: H (4),
 * offset of the first entry from the image's start (4), n (2), edition (2).
 *
 * The bytes are only read.
 */
uint32_t lomvadric_check_image(const uint8_t *image, size_t length);

/* Reads the table of an image; whatever stood in `table` is gone. Refusals: 8 to 14; then the table is all zeros. */
uint32_t lomvadric_read_image(struct lomvadric_table *table, const uint8_t *image, size_t length);

/* Says where the entries lie in an image, for a boot display. Refusals: 8 to 14; then it is the empty part at the front. */
struct lomvadric_part lomvadric_entries(const uint8_t *image, size_t length);

/* Writes the image of a table, 8n + 12 bytes with offset 0, to the front of a buffer; the bytes behind it stay. Refusals: 10, 12 to 15. */
uint32_t lomvadric_write_image(const struct lomvadric_table *table, uint8_t *buffer, size_t length);

#ifdef __cplusplus
}
#endif

#endif
