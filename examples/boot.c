/* boot.c: checks the table image in a file as boot code does, and prints 0 or the refusal with its meaning. */
#include <inttypes.h>
#include <stdio.h>

#include "lomvadric.h"

/* One byte more than the longest image: a longer file is refused whatever follows. */
#define ENOUGH 65537

/* The exit statuses. */
enum { ACCEPTED = 0, REFUSED = 1, NOT_READ = 2 };

static uint8_t image[ENOUGH];

/* Reads the front of the file into `image`; gives 0 where the file can't be opened or a read fails. */
static int read_image(const char *name, size_t *length)
{
    FILE *file = fopen(name, "rb");
    if (file == NULL) {
        return 0;
    }
    *length = fread(image, 1, sizeof image, file);
    int whole = !ferror(file);
    fclose(file);
    return whole;
}

int main(int argument_count, char **arguments)
{
    size_t length = 0;
    if (argument_count != 2) {
        fputs("usage: boot IMAGE\n", stderr);
        return NOT_READ;
    }
    if (!read_image(arguments[1], &length)) {
        fprintf(stderr, "boot: can't read %s\n", arguments[1]);
        return NOT_READ;
    }
    uint32_t number = lomvadric_check_image(image, length);
    if (number == 0) {
        puts("0");
        return ACCEPTED;
    }
    printf("%" PRIu32 " %s\n", number, lomvadric_refusal_text(number));
    return REFUSED;
}
