/*
 * step source|linear IMAGE VALUE..: runs a program image from its first definition on one of the machines, and prints an event on each line.
 * A value is an integer, or an outside number with @ before it.
 */
#include <stdio.h>
#include <stdlib.h>
#include <string.h>

#include "axcut.h"

typedef uint32_t start_function(const uint8_t *, size_t, size_t, const uint8_t *, size_t, uint8_t *, size_t);
typedef uint32_t step_function(const uint8_t *, size_t, uint64_t, uint8_t *, size_t, uint8_t *, size_t, uint64_t *, size_t *);

/* The parameters of a definition are at most 128. An event buffer so small that a long run takes several calls. */
static uint8_t image[AXCUT_LARGEST_IMAGE + 1], values[128 * AXCUT_SLOT], store[1 << 20], events[256 * AXCUT_SLOT];

/* The number in so many bytes, the lowest first. */
static uint64_t number_in(const uint8_t *bytes, int count)
{
    uint64_t number = 0;

    while (count-- > 0)
        number = number << 8 | bytes[count];
    return number;
}

/* A value of a start. */
static void put_value(uint8_t *slot, const char *word)
{
    int outside = word[0] == '@', at;
    uint64_t number = (uint64_t)strtoll(word + outside, NULL, 10);

    memset(slot, 0, AXCUT_SLOT);
    slot[0] = outside ? 2 : 0;
    for (at = 8; at < AXCUT_SLOT; at++, number >>= 8)
        slot[at] = number & 255;
}

static void print_value(int sort, const uint8_t *number)
{
    static const char *const sorts[] = {"", "cell ", "outside "};

    printf("%s%lld", sorts[sort], (long long)number_in(number, 8));
}

/* Prints an event, and returns its bytes. */
static size_t print_event(const uint8_t *event)
{
    static const char *const kinds[] = {"", "", "", "Call", "Let", "Switch", "Create", "Invoke", "Literal", "Op", "IfC", "", "PrintI64", "Exit"};
    int kind = event[0];
    size_t at, end = AXCUT_SLOT * (1 + (size_t)number_in(event + 4, 4));

    fputs(kinds[kind], stdout);
    if (kind == 3 || kind == 4 || kind == 5 || kind == 7)
        printf(" %u", (unsigned)number_in(event + 2, 2));
    if (kind == 10) {
        printf(": %s", event[1] ? "then" : "else");
    } else if (kind != 3) {
        fputs(": ", stdout);
        print_value(kind == 12 ? 0 : event[1], event + 8);
    }
    for (at = AXCUT_SLOT; at < end; at += AXCUT_SLOT) {
        fputs(", ", stdout);
        print_value(event[at], event + at + 8);
    }
    putchar('\n');
    return end;
}

/* Makes all steps and prints their events. Returns the number of the last call, and adds up the steps. */
static uint32_t run(step_function *step, size_t image_len, uint64_t *steps)
{
    uint32_t number;
    uint64_t made;
    size_t at, length;

    do {
        number = step(image, image_len, UINT64_MAX, store, sizeof store, events, sizeof events, &made, &length);
        for (at = 0; at < length; at += print_event(events + at))
            ;
        *steps += made;
    } while (number == AXCUT_SPACE && made > 0);
    return number;
}

int main(int argc, char **argv)
{
    int linear = argc > 1 && strcmp(argv[1], "linear") == 0, place;
    start_function *start = linear ? axcut_linear_start : axcut_source_start;
    step_function *step = linear ? axcut_linear_step : axcut_source_step;
    uint64_t steps = 0;
    size_t image_len;
    uint32_t number;
    FILE *file;

    if (argc < 3 || argc > 3 + 128 || !(linear || strcmp(argv[1], "source") == 0)) {
        fprintf(stderr, "usage: step source|linear IMAGE VALUE..\n");
        return 2;
    }
    if (!(file = fopen(argv[2], "rb"))) {
        perror(argv[2]);
        return 2;
    }
    /* One byte more than the largest image, so that a longer file is refused and not cut. */
    image_len = fread(image, 1, sizeof image, file);
    fclose(file);
    for (place = 3; place < argc; place++)
        put_value(values + AXCUT_SLOT * (place - 3), argv[place]);

    number = start(image, image_len, 0, values, AXCUT_SLOT * (size_t)(argc - 3), store, sizeof store);
    if (number == AXCUT_ACCEPTED)
        number = run(step, image_len, &steps);
    if (number != AXCUT_ACCEPTED) {
        fprintf(stderr, "refused %u\n", (unsigned)number);
        return 1;
    }
    fprintf(stderr, "%llu steps, %s\n", (unsigned long long)steps, store[4] ? "ended" : store[5] ? "stopped" : "stuck");
    return 0;
}
