/*
 * The image check as the fuzzer runs it: image after image in one process, which is far faster than a process for each. The
 * archive's check is linked too, without instruments, and a difference is a crash: so every image is compared, and not only those kept.
 */

#include <unistd.h>

#include "lomvadric.h"

#define main image_main
#include "image.c"
#undef main

__AFL_FUZZ_INIT();

int main(void)
{
    const unsigned char *image = __AFL_FUZZ_TESTCASE_BUF;
    while (__AFL_LOOP(100000)) {
        size_t length = (size_t)__AFL_FUZZ_TESTCASE_LEN;
        if ((uint32_t)check_image(image, length) != lomvadric_check_image(image, length)) {
            abort();
        }
    }
    return EXIT_SUCCESS;
}
