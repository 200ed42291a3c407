/*
 * answer_probe FILE..: reads each file as a discovery probe, and prints what it asks for: which writers, which
 * WriterGroup, or which connections.
 */
#include "uadp.h"

#include <inttypes.h>
#include <stdio.h>
#include <stdlib.h>

static uint8_t datagram[UADP_MOST_DATAGRAM + 1];

static void print_ids(size_t length, uadp_probe_record *probe)
{
    uadp_probe_item item;

    while (UADP_NUMBER(uadp_next_probe_item(datagram, length, probe, &item)) == UADP_DONE) {
        (void)printf(" %" PRIu64, item.value);
    }
    (void)printf(probe->is_null ? " none (null)\n" : "\n");
}

/* Each string is that part of the datagram. */
static void print_strings(size_t length, uadp_probe_record *probe)
{
    uadp_probe_item item;

    while (UADP_NUMBER(uadp_next_probe_item(datagram, length, probe, &item)) == UADP_DONE) {
        if (item.value == 1) {
            (void)printf(" null");
        } else {
            (void)printf(" \"%.*s\"", (int)item.length, (const char *)(datagram + item.offset));
        }
    }
    (void)printf(probe->is_null ? " any (null)" : "");
    (void)printf(", writer groups %" PRIu64 ", writers %" PRIu64 "\n", probe->include_writer_groups,
                 probe->include_data_set_writers);
}

static void answer(size_t length)
{
    uadp_probe_record probe;
    uadp_result result = uadp_probe(datagram, length, NULL, &probe);

    if (UADP_NUMBER(result) != UADP_DONE) {
        (void)printf("refused by %u at %" PRIu64 ": %s\n", (unsigned)UADP_NUMBER(result), UADP_PLACE(result),
                     uadp_number_text(UADP_NUMBER(result)));
        return;
    }
    switch (probe.information_type) {
    case UADP_ASKS_META_DATA:
        (void)printf("metadata of writers:");
        print_ids(length, &probe);
        break;
    case UADP_ASKS_WRITERS:
        (void)printf("configuration of writers:");
        print_ids(length, &probe);
        break;
    case UADP_ASKS_WRITER_GROUP:
        (void)printf("configuration of writer group %" PRIu64 ", writers %" PRIu64 "\n", probe.writer_group_id,
                     probe.include_data_set_writers);
        break;
    default:
        (void)printf("connections of profiles:");
        print_strings(length, &probe);
        break;
    }
}

int main(int argc, char **argv)
{
    int k;

    for (k = 1; k < argc; k++) {
        FILE *file = fopen(argv[k], "rb");

        if (file == NULL) {
            (void)fprintf(stderr, "answer_probe: %s cannot be opened\n", argv[k]);
            return EXIT_FAILURE;
        }
        answer(fread(datagram, 1, sizeof datagram, file));
        (void)fclose(file);
    }
    return EXIT_SUCCESS;
}
