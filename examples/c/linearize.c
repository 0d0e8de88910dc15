/* linearize IN OUT: linearizes the program image IN and writes the result to OUT. */
#include <stdio.h>

#include "axcut.h"

static uint8_t image[AXCUT_LARGEST_IMAGE + 1], out[AXCUT_LARGEST_IMAGE];

static int trouble(const char *path)
{
    perror(path);
    return 2;
}

int main(int argc, char **argv)
{
    size_t image_len, length;
    uint32_t max_id, number;
    FILE *file;

    if (argc != 3) {
        fprintf(stderr, "usage: linearize IN OUT\n");
        return 2;
    }

    /* One byte more than the largest image, so that a longer file is refused and not cut. */
    if (!(file = fopen(argv[1], "rb")))
        return trouble(argv[1]);
    image_len = fread(image, 1, sizeof image, file);
    fclose(file);

    number = axcut_linearize(image, image_len, out, sizeof out, &length, &max_id);
    if (number != AXCUT_ACCEPTED) {
        fprintf(stderr, "refused %u\n", (unsigned)number);
        return 1;
    }

    if (!(file = fopen(argv[2], "wb")))
        return trouble(argv[2]);
    if (fwrite(out, 1, length, file) != length || fclose(file) != 0)
        return trouble(argv[2]);
    printf("%zu bytes, max_id %u\n", length, (unsigned)max_id);
    return 0;
}
