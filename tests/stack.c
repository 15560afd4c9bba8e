/* stack.c: measures the stack that each call takes, prints it beside what the header says, and fails where it is more.

   A call is made on a stack of this program's own, which was painted before: how far down the paint is gone is what the call took. Its
   return address counts, its caller's frame does not. Each call is made with two paints, so that no byte that it writes passes for paint, on
   several states, tables and images, and with several numbers; the most counts. */
#include <inttypes.h>
#include <stdio.h>
#include <string.h>

#include "lomvadric.h"

enum { STACK_SIZE = 256 * 1024, IMAGE_SIZE = 8 * LOMVADRIC_GUEST_PLACES + 12, MOST_ARGUMENTS = 3 };

typedef void (*function)(void);

/* Calls a function on the stack whose end is `top`, with three words, as the convention of x86-64 has it; gives the word that it gives. */
uint64_t call_on(unsigned char *top, function called, uint64_t first, uint64_t second, uint64_t third);
__asm__(".text\n"
        ".globl call_on\n"
        "call_on:\n"
        "    push %rbp\n"
        "    mov %rsp, %rbp\n"
        "    mov %rdi, %rsp\n"
        "    mov %rsi, %rax\n"
        "    mov %rdx, %rdi\n"
        "    mov %rcx, %rsi\n"
        "    mov %r8, %rdx\n"
        "    call *%rax\n"
        "    mov %rbp, %rsp\n"
        "    pop %rbp\n"
        "    ret\n");

/* ---- what the calls are made on */

struct situation {
    struct lomvadric_state state;
    struct lomvadric_table table;
    uint8_t image[IMAGE_SIZE];
    uint64_t length;
};

/* Guest after guest leaves a spare, and then as many guests are active as there is room for. */
static void prepare(struct situation *it, size_t guests, size_t spares)
{
    memset(it, 0, sizeof *it);
    it->table.frame = 240;
    it->table.count = guests;
    for (size_t i = 0; i < guests; i++) {
        it->table.entries[i].budget = 4;
        it->table.entries[i].period = 240 / (i / 3 + 1);
    }
    it->length = 8 * guests + 12;
    lomvadric_write_image(&it->table, it->image, sizeof it->image);
    lomvadric_fresh(&it->state, &it->table);
    for (size_t n = 0; n < spares; n++) {
        lomvadric_arrive(&it->state, n % guests);
        lomvadric_done(&it->state, n % guests);
    }
    for (size_t i = 0; i < guests; i++) {
        lomvadric_arrive(&it->state, i);
    }
}

/* ---- the calls */

/* What an argument is. ANSWER is the place that a caller keeps for a struct of more than 16 bytes that is given back. */
enum argument { NONE, ANSWER, STATE, TABLE, IMAGE, LENGTH, NUMBER };

struct call {
    const char *name;
    function called;
    size_t limit;
    enum argument arguments[MOST_ARGUMENTS];
};

static const struct call calls[] = {
    {"fresh", (function)lomvadric_fresh, LOMVADRIC_STACK_FRESH, {STATE, TABLE, NONE}},
    {"arrive", (function)lomvadric_arrive, LOMVADRIC_STACK_ARRIVE, {STATE, NUMBER, NONE}},
    {"done", (function)lomvadric_done, LOMVADRIC_STACK_DONE, {STATE, NUMBER, NONE}},
    {"advance", (function)lomvadric_advance, LOMVADRIC_STACK_ADVANCE, {STATE, NUMBER, NONE}},
    {"walk", (function)lomvadric_walk, LOMVADRIC_STACK_WALK, {ANSWER, STATE, NUMBER}},
    {"ask", (function)lomvadric_ask, LOMVADRIC_STACK_ASK, {ANSWER, STATE, NONE}},
    {"active", (function)lomvadric_active, LOMVADRIC_STACK_ACTIVE, {STATE, NONE, NONE}},
    {"margin", (function)lomvadric_margin, LOMVADRIC_STACK_MARGIN, {STATE, NUMBER, NONE}},
    {"check_image", (function)lomvadric_check_image, LOMVADRIC_STACK_CHECK_IMAGE, {IMAGE, LENGTH, NONE}},
    {"read_image", (function)lomvadric_read_image, LOMVADRIC_STACK_READ_IMAGE, {TABLE, IMAGE, LENGTH}},
    {"entries", (function)lomvadric_entries, LOMVADRIC_STACK_ENTRIES, {ANSWER, IMAGE, LENGTH}},
    {"write_image", (function)lomvadric_write_image, LOMVADRIC_STACK_WRITE_IMAGE, {TABLE, IMAGE, LENGTH}},
};

/* Guests or ticks: the last one is refused as either, the one before it as a guest. */
static const uint64_t numbers[] = {0, 1, LOMVADRIC_GUEST_PLACES - 1, 1000, UINT64_MAX};

/* ---- the measuring */

static unsigned char stack[STACK_SIZE] __attribute__((aligned(16)));
static union {
    uint32_t refusal;
    struct lomvadric_walked walked;
} answer;

static uint64_t word_of(enum argument argument, struct situation *it, uint64_t number)
{
    switch (argument) {
    case ANSWER:
        return (uint64_t)(uintptr_t)&answer;
    case STATE:
        return (uint64_t)(uintptr_t)&it->state;
    case TABLE:
        return (uint64_t)(uintptr_t)&it->table;
    case IMAGE:
        return (uint64_t)(uintptr_t)it->image;
    case LENGTH:
        return it->length;
    default:
        return number;
    }
}

/* The bytes from the first one that is no paint to the stack's end. */
static size_t used(unsigned char paint)
{
    size_t untouched = 0;
    while (untouched < sizeof stack && stack[untouched] == paint) {
        untouched++;
    }
    return sizeof stack - untouched;
}

/* One call, on a copy; says in `accepted` whether it was ever accepted. */
static size_t measured(const struct call *call, const struct situation *start, uint64_t number, unsigned char paint, int *accepted)
{
    struct situation it = *start;
    uint64_t words[MOST_ARGUMENTS];
    for (size_t i = 0; i < MOST_ARGUMENTS; i++) {
        words[i] = word_of(call->arguments[i], &it, number);
    }
    memset(stack, paint, sizeof stack);
    uint64_t given = call_on(stack + sizeof stack, call->called, words[0], words[1], words[2]);
    uint32_t refusal = call->arguments[0] == ANSWER ? answer.refusal : (uint32_t)given;
    *accepted = *accepted || refusal == 0;
    return used(paint);
}

static size_t most_on(const struct call *call, const struct situation *start, int *accepted)
{
    size_t most = 0;
    for (size_t i = 0; i < sizeof numbers / sizeof numbers[0]; i++) {
        size_t first = measured(call, start, numbers[i], 0xa5, accepted);
        size_t second = measured(call, start, numbers[i], 0x5a, accepted);
        most = most > first ? most : first;
        most = most > second ? most : second;
    }
    return most;
}

/* Whether a call keeps to what the header says. */
static int keeps(const struct call *call, const struct situation *situations, size_t count)
{
    size_t most = 0;
    int accepted = 0;
    for (size_t i = 0; i < count; i++) {
        size_t here = most_on(call, &situations[i], &accepted);
        most = most > here ? most : here;
    }
    printf("%-12s %6zu bytes of stack, the header says %6zu\n", call->name, most, call->limit);
    if (!accepted) {
        printf("%s was never accepted\n", call->name);
    }
    return accepted && most <= call->limit;
}

int main(void)
{
    enum { ONE_GUEST, ONE_GUEST_FULL, ALL_GUESTS, ALL_GUESTS_FULL, NOT_SOUND, SITUATIONS };
    static struct situation situations[SITUATIONS];
    int all_keep = 1;
    prepare(&situations[ONE_GUEST], 1, 0);
    prepare(&situations[ONE_GUEST_FULL], 1, 63);
    prepare(&situations[ALL_GUESTS], 16, 0);
    prepare(&situations[ALL_GUESTS_FULL], 16, 48);
    memset(&situations[NOT_SOUND], 0xff, sizeof situations[NOT_SOUND]);
    situations[NOT_SOUND].length = IMAGE_SIZE;
    for (size_t i = 0; i < sizeof calls / sizeof calls[0]; i++) {
        all_keep = keeps(&calls[i], situations, SITUATIONS) && all_keep;
    }
    return all_keep ? 0 : 1;
}
