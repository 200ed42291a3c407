/*
 * list_datagram [FILE]: lists a datagram from the file or from standard input, under the configuration in readers.txt
 * of the working folder (empty if absent). A refused configuration, or else datagram, is the one line `bad`, number,
 * place.
 */
#include "uadp.h"

#include <errno.h>
#include <stdio.h>
#include <stdlib.h>
#include <string.h>

/* One byte more than the longest datagram, so that a longer one is seen. */
static uint8_t datagram[UADP_MOST_DATAGRAM + 1];
static char text[4096], listing[UADP_MOST_LISTING];

/* Reads a file, as far as the area takes it; 0 where that fails, with a message. */
static int read_all(const char *name, FILE *file, void *area, size_t area_length, size_t *length)
{
    int read = file != NULL;

    if (read) {
        *length = fread(area, 1, area_length, file);
        read = ferror(file) == 0;
        (void)fclose(file);
    }
    if (!read) {
        (void)fprintf(stderr, "%s: %s\n", name, strerror(errno));
    }
    return read;
}

int main(int argc, char **argv)
{
    const char *name = argc == 2 ? argv[1] : "standard input";
    size_t text_length = 0, length = 0, listed;
    uadp_config_record config;
    uadp_result result;
    FILE *readers;

    if (argc > 2) {
        (void)fprintf(stderr, "usage: list_datagram [FILE]\n");
        return EXIT_FAILURE;
    }
    readers = fopen("readers.txt", "rb");
    if ((readers != NULL || errno != ENOENT) && !read_all("readers.txt", readers, text, sizeof text, &text_length)) {
        return EXIT_FAILURE;
    }
    result = uadp_config(text, text_length, &config);
    if (UADP_NUMBER(result) != UADP_DONE) {
        (void)printf("bad\t%u\t%llu\n", (unsigned)UADP_NUMBER(result), (unsigned long long)UADP_PLACE(result));
        return EXIT_SUCCESS;
    }
    if (!read_all(name, argc == 2 ? fopen(name, "rb") : stdin, datagram, sizeof datagram, &length)) {
        return EXIT_FAILURE;
    }
    listed = UADP_VALUE(uadp_list(datagram, length, &config, listing, sizeof listing)); /* there is room for any */
    return fwrite(listing, 1, listed, stdout) == listed ? EXIT_SUCCESS : EXIT_FAILURE;
}
