/* The plain listing program as the fuzzer runs it: script after script in one process, each cut off where its listing gets long. */

#include <stdio.h>
#include <stdlib.h>
#include <unistd.h>

/*
 * Writes nothing: the listings are compared at the replay. The program writes only a full buffer or the end of its listing, so the
 * second write of a script comes behind 64 KiB; an advance of 2^40 ticks would never come to its end, and the run is given up.
 */
static size_t writes;

static size_t bounded_write(const void *bytes, size_t size, size_t count, FILE *file)
{
    (void)bytes;
    (void)size;
    (void)file;
    if (++writes > 1) {
        _exit(EXIT_SUCCESS);
    }
    return count;
}

#define fwrite bounded_write
#define main program_main
#include "../bench/program.c"
#undef main
#undef fwrite

__AFL_FUZZ_INIT();

/* As the program's own main, but from a state that is made anew each time. */
static void run_script(const unsigned char *script, size_t length)
{
    static const struct state fresh;
    struct state state = fresh;
    struct reader reader = {script, script + length};
    output_used = 0;
    writes = 0;
    enum refusal refusal = length > MOST_INPUT ? MALFORMED_INPUT : carry_out(&reader, &state);
    if (refusal != ACCEPTED) {
        print_refusal(refusal);
    } else {
        print_end(state.now);
    }
}

int main(void)
{
    const unsigned char *script = __AFL_FUZZ_TESTCASE_BUF;
    while (__AFL_LOOP(100000)) {
        run_script(script, (size_t)__AFL_FUZZ_TESTCASE_LEN);
    }
    return EXIT_SUCCESS;
}
