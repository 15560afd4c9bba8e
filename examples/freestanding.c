/* freestanding.c: the worked listing of the specification with no C library: it has its own start, the two functions that the archive asks
   for, and two system calls of x86-64 Linux. A hypervisor has its own ways to start and to write. Built by
   gcc -ffreestanding -nostdlib -static -Iinclude examples/freestanding.c target/lib/liblomvadric.a */
#include "lomvadric.h"

/* ---- what the archive asks for; single instructions, because a compiler may make calls of memcpy and memset out of loops */

void *memcpy(void *to, const void *from, size_t size)
{
    void *at = to;
    __asm__ volatile("rep movsb" : "+D"(at), "+S"(from), "+c"(size) : : "memory");
    return to;
}

void *memset(void *to, int byte, size_t size)
{
    void *at = to;
    __asm__ volatile("rep stosb" : "+D"(at), "+c"(size) : "a"(byte) : "memory");
    return to;
}

/* ---- the operating system */

enum { WRITE = 1, EXIT = 60, STANDARD_OUTPUT = 1 };

static long system_call(long number, long first, const void *second, size_t third)
{
    long answer;
    __asm__ volatile("syscall" : "=a"(answer) : "a"(number), "D"(first), "S"(second), "d"(third) : "rcx", "r11", "memory");
    return answer;
}

/* ---- lines, gathered here and written at the end */

static char output[4096];
static size_t filled;

static void put(char c)
{
    if (filled < sizeof output) {
        output[filled++] = c;
    }
}

static void put_text(const char *text)
{
    while (*text != '\0') {
        put(*text++);
    }
}

static void put_number(uint64_t number)
{
    char digits[20];
    size_t count = 0;
    do {
        digits[count++] = (char)('0' + number % 10);
        number /= 10;
    } while (number > 0);
    while (count > 0) {
        put(digits[--count]);
    }
}

/* First tick, end tick, the guest or `-`, and whose capacity it used, `o` own or `s` spare. */
static void put_line(const struct lomvadric_line *line)
{
    const struct lomvadric_use *used = &line->used;
    put_number(line->first);
    put(' ');
    put_number(line->end);
    put(' ');
    if (used->kind == LOMVADRIC_OWN || used->kind == LOMVADRIC_SPARE) {
        put_number(used->guest);
    } else {
        put('-');
    }
    put(' ');
    if (used->kind == LOMVADRIC_NOTHING) {
        put('-');
    } else {
        put_number(used->owner);
        put(used->kind == LOMVADRIC_OWN ? 'o' : 's');
    }
    put('\n');
}

/* ---- the schedule */

static struct lomvadric_state state;
static struct lomvadric_walked walked;

/* So many ticks, shown portion by portion. */
static uint32_t run(uint64_t ticks)
{
    do {
        walked = lomvadric_walk(&state, ticks);
        for (size_t i = 0; i < walked.shown; i++) {
            put_line(&walked.lines[i]);
        }
        ticks = walked.left;
    } while (ticks > 0);
    return walked.refusal;
}

/* A line of examples/listing.txt: a job arrives at a guest (A), one is done (D), so many ticks pass (R). */
struct command {
    char letter;
    uint64_t number;
};

static uint32_t carry_out(const struct command *command)
{
    switch (command->letter) {
    case 'A':
        return lomvadric_arrive(&state, command->number);
    case 'D':
        return lomvadric_done(&state, command->number);
    default:
        return run(command->number);
    }
}

/* Gives 0, or the first refusal, which ends it. */
static uint32_t schedule(void)
{
    static const struct lomvadric_table table = {8, 2, {{3, 4}, {2, 8}}};
    static const struct command commands[] = {
        {'A', 0}, {'A', 1}, {'R', 2}, {'D', 0}, {'R', 2}, {'A', 0}, {'R', 4}, {'D', 1}, {'D', 0}, {'R', 5},
    };
    uint32_t refusal = lomvadric_fresh(&state, &table);
    for (size_t i = 0; refusal == 0 && i < sizeof commands / sizeof commands[0]; i++) {
        refusal = carry_out(&commands[i]);
    }
    return refusal;
}

/* Called by _start; the exit status is 0, or the refusal. */
__attribute__((used)) static void begin(void)
{
    uint32_t refusal = schedule();
    put_text("end ");
    put_number(state.now);
    put('\n');
    system_call(WRITE, STANDARD_OUTPUT, output, filled);
    system_call(EXIT, (long)refusal, NULL, 0);
}

/* The stack is aligned as C functions expect it. */
__asm__(".text\n.globl _start\n_start:\n    xor %ebp, %ebp\n    and $-16, %rsp\n    call begin\n");
