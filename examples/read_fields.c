/*
 * read_fields FILE: reads the datagram in a file field by field, and prints what each is and its bytes.
 */
#include "uadp.h"

#include <inttypes.h>
#include <stdio.h>
#include <stdlib.h>

static uint8_t datagram[UADP_MOST_DATAGRAM + 1];

static void print_refusal(const char *what, uadp_result result)
{
    (void)printf("%s refused by %u at %" PRIu64 ": %s\n", what, (unsigned)UADP_NUMBER(result), UADP_PLACE(result),
                 uadp_number_text(UADP_NUMBER(result)));
}

static void print_bytes(const uint8_t *bytes, uint64_t length)
{
    uint64_t k;

    for (k = 0; k < length; k++) {
        (void)printf(" %02X", bytes[k]);
    }
    (void)printf("\n");
}

/* A field's bytes are a whole Variant or DataValue, or the bare element of RawData: see uadp_field_record. */
static void print_field(const uint8_t *message, const uadp_field_record *field)
{
    (void)printf("  field %" PRIu64 ": type %" PRIu64, field->index, field->type);
    if (field->shape == UADP_ARRAY) {
        (void)printf(", %" PRIu64 " elements", field->elements);
    } else if (field->shape == UADP_NULL_ARRAY) {
        (void)printf(", null array");
    }
    (void)printf(", at %" PRIu64 ":", field->offset);
    print_bytes(message + field->offset, field->length);
}

static void print_message(const uint8_t *message, size_t length, uint32_t writer)
{
    static const char *const kinds[] = {"key frame", "delta frame", "event", "keep alive"};
    static const char *const encodings[] = {"Variant", "RawData", "DataValue"};
    uadp_head_record head;
    uadp_field_record field;
    uadp_result result = uadp_read_message(message, length, NULL, writer, &head);

    if (UADP_NUMBER(result) != UADP_DONE) {
        print_refusal("message", result);
        return;
    }
    if (!head.valid) {
        (void)printf("message of writer %" PRIu32 ": not valid\n", writer);
        return;
    }
    (void)printf("message of writer %" PRIu32 ": %s, %s", writer, kinds[head.kind], encodings[head.encoding]);
    if (head.items & UADP_ITEM_SEQUENCE) {
        (void)printf(", sequence %" PRIu64, head.sequence);
    }
    (void)printf("\n");
    while (UADP_NUMBER(uadp_next_field(message, length, NULL, writer, &head, &field)) == UADP_DONE) {
        print_field(message, &field);
    }
}

int main(int argc, char **argv)
{
    FILE *file = argc == 2 ? fopen(argv[1], "rb") : NULL;
    uadp_envelope_record envelope;
    uadp_place_record place;
    uadp_result result;
    size_t length;

    if (file == NULL) {
        (void)fprintf(stderr, "usage: read_fields FILE\n");
        return EXIT_FAILURE;
    }
    length = fread(datagram, 1, sizeof datagram, file);
    (void)fclose(file);

    result = uadp_read(datagram, length, NULL, &envelope);
    if (UADP_NUMBER(result) != UADP_DONE) {
        print_refusal("datagram", result);
        return EXIT_FAILURE;
    }
    if (envelope.publisher_type == UADP_ID_STRING) {
        (void)printf("datagram of");
        print_bytes(datagram + envelope.publisher_end - envelope.publisher, envelope.publisher);
    } else if (envelope.publisher_type != UADP_ID_ABSENT) {
        (void)printf("datagram of %" PRIu64 "\n", envelope.publisher);
    }
    while (UADP_NUMBER(uadp_next_message(datagram, length, NULL, &envelope, &place)) == UADP_DONE) {
        print_message(datagram + place.offset, place.length, (uint32_t)place.writer);
    }
    return EXIT_SUCCESS;
}
