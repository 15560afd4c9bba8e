/* The image check in plain C, for the fuzzer to find its way through: it prints 0 or the refusal number of a table image. */

#include <stdbool.h>
#include <stddef.h>
#include <stdint.h>
#include <stdio.h>
#include <stdlib.h>

enum {
    SHORTEST_IMAGE = 20,
    LONGEST_IMAGE = 65536,
    ENTRY_LENGTH = 8,
    TRAILER_LENGTH = 12,
    EDITION = 1,
    MOST_GUESTS = 16,
    LONGEST_FRAME = 1000000
};

enum refusal {
    ACCEPTED = 0,
    BAD_LENGTH = 8,
    BAD_EDITION = 9,
    BAD_GUEST_COUNT = 10,
    BAD_OFFSET = 11,
    BAD_FRAME = 12,
    BAD_GUEST = 13,
    SHARES_TOO_GREAT = 14
};

/* Wider than its fields, so that no sum or product of them wraps. */
struct trailer {
    uint64_t frame;
    uint64_t offset;
    uint64_t guest_count;
    uint64_t edition;
};

static uint64_t take_number(const unsigned char *bytes, size_t count)
{
    uint64_t number = 0;
    for (size_t index = count; index > 0; index--) {
        number = number * 256 + bytes[index - 1];
    }
    return number;
}

static struct trailer take_trailer(const unsigned char *bytes)
{
    struct trailer trailer = {
        take_number(bytes, 4),
        take_number(bytes + 4, 4),
        take_number(bytes + 8, 2),
        take_number(bytes + 10, 2)
    };
    return trailer;
}

static enum refusal check_trailer(const struct trailer *trailer, size_t length)
{
    if (trailer->edition != EDITION) {
        return BAD_EDITION;
    }
    if (trailer->guest_count == 0 || trailer->guest_count > MOST_GUESTS) {
        return BAD_GUEST_COUNT;
    }
    if (trailer->offset + ENTRY_LENGTH * trailer->guest_count + TRAILER_LENGTH != length) {
        return BAD_OFFSET;
    }
    if (trailer->frame == 0 || trailer->frame > LONGEST_FRAME) {
        return BAD_FRAME;
    }
    return ACCEPTED;
}

static bool guest_holds(uint64_t budget, uint64_t period, uint64_t frame)
{
    return budget >= 1 && budget <= period && frame % period == 0;
}

/* A bad guest comes before shares that are too great, so the sum is judged only behind the last guest. */
static enum refusal check_entries(const unsigned char *entries, const struct trailer *trailer)
{
    uint64_t shares = 0;
    for (size_t index = 0; index < trailer->guest_count; index++) {
        const unsigned char *entry = entries + ENTRY_LENGTH * index;
        uint64_t budget = take_number(entry, 4);
        uint64_t period = take_number(entry + 4, 4);
        if (!guest_holds(budget, period, trailer->frame)) {
            return BAD_GUEST;
        }
        shares += budget * (trailer->frame / period);
    }
    return shares > trailer->frame ? SHARES_TOO_GREAT : ACCEPTED;
}

static enum refusal check_image(const unsigned char *image, size_t length)
{
    if (length < SHORTEST_IMAGE || length > LONGEST_IMAGE) {
        return BAD_LENGTH;
    }
    struct trailer trailer = take_trailer(image + length - TRAILER_LENGTH);
    enum refusal refusal = check_trailer(&trailer, length);
    return refusal != ACCEPTED ? refusal : check_entries(image + trailer.offset, &trailer);
}

int main(void)
{
    /* One byte more than is allowed is enough to tell that there is too much. */
    static unsigned char image[LONGEST_IMAGE + 1];
    size_t length = fread(image, 1, sizeof image, stdin);
    printf("%d\n", (int)check_image(image, length));
    return EXIT_SUCCESS;
}
