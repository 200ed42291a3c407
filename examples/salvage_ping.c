/*
 * salvage_ping FILE..: takes the chunks of a ping in, each the datagram in a file, and saves what came: which bytes are
 * missing, and the settings before them that are whole.
 */
#include "uadp.h"

#include <inttypes.h>
#include <stdio.h>
#include <stdlib.h>

static uint8_t datagram[UADP_MOST_DATAGRAM + 1];
static uint8_t payload[UADP_MOST_PAYLOAD];
static uint8_t marks[UADP_MARKS_SIZE(UADP_MOST_PAYLOAD)];
static uadp_field_record list[UADP_MOST_PAYLOAD];

static void print_field(const uadp_field_record *field)
{
    (void)printf("field %" PRIu64 ": type %" PRIu64, field->index, field->type);
    if (field->shape == UADP_ARRAY) {
        (void)printf(", %" PRIu64 " elements", field->elements);
    }
    (void)printf(", at %" PRIu64 " of %" PRIu64 " bytes\n", field->offset, field->length);
}

static void print_salvage(const uadp_partial *partial)
{
    uadp_salvage_record told;
    uadp_result result = uadp_salvage(partial, NULL, &told, list, sizeof list / sizeof list[0]);
    uint64_t k;

    if (UADP_NUMBER(result) != UADP_DONE) {
        (void)printf("refused by %u at %" PRIu64 ": %s\n", (unsigned)UADP_NUMBER(result), UADP_PLACE(result),
                     uadp_number_text(UADP_NUMBER(result)));
        return;
    }
    (void)printf("%" PRIu64 " of %" PRIu64 " bytes\n", UADP_VALUE(uadp_progress(partial, NULL)), told.total);
    for (k = 0; k < told.holes; k++) {
        (void)printf("hole at %" PRIu64 " of %" PRIu64 " bytes\n", list[k].offset, list[k].length);
    }
    if (told.count_known) {
        (void)printf("%" PRIu64 " of %" PRIu64 " fields\n", told.fields, told.promised);
    } else {
        (void)printf("the count of fields is missing\n");
    }
    for (k = told.holes; k < told.holes + told.fields; k++) {
        print_field(&list[k]);
    }
}

int main(int argc, char **argv)
{
    uadp_partial partial = UADP_ZERO;
    int k;

    partial.payload = payload;
    partial.marks = marks;
    partial.room = sizeof payload;
    for (k = 1; k < argc; k++) {
        FILE *file = fopen(argv[k], "rb");
        size_t length;

        if (file == NULL) {
            (void)fprintf(stderr, "salvage_ping: %s cannot be opened\n", argv[k]);
            return EXIT_FAILURE;
        }
        length = fread(datagram, 1, sizeof datagram, file);
        (void)fclose(file);
        if (UADP_NUMBER(uadp_take_in(&partial, datagram, length, NULL)) != UADP_DONE) {
            (void)printf("a chunk is left out\n");
        }
    }
    print_salvage(&partial);
    return EXIT_SUCCESS;
}
