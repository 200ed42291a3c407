/*
 * noise_filter FILE..: what the module does. Each file is a datagram with a chunk of a ping, a key frame of Variants.
 * One that is complete and newer than the last is published as publisher 4712, in chunks of 64 bytes, printed in hex:
 * its columns of Floats are cleaned, every other field goes out as it stands.
 */
#include "uadp.h"

#include <stdio.h>
#include <stdlib.h>
#include <string.h>

enum { PUBLISHER = 4712, CHUNK = 64 };

static uint8_t ping[UADP_MOST_PAYLOAD], marks[UADP_MARKS_SIZE(UADP_MOST_PAYLOAD)];
static uadp_partial partial = {UADP_ZERO, ping, marks, sizeof ping};
static uadp_sequence_record last;
static uint16_t published;

/* Is the call done? A refusal is told. */
static int is_done(uadp_result result)
{
    unsigned number = (unsigned)UADP_NUMBER(result);

    if (number != UADP_DONE) {
        (void)printf("refused by %u at %zu: %s\n", number, (size_t)UADP_PLACE(result), uadp_number_text(number));
    }
    return number == UADP_DONE;
}

/* The one in the middle, so that no bit of a sample changes. */
static float median(float a, float b, float c)
{
    if (a < b) {
        return b < c ? b : (a < c ? c : a);
    }
    return a < c ? a : (b < c ? c : b);
}

/* Puts a column of Floats, each sample replaced by the median of itself and its neighbours. */
static uadp_result put_cleaned(const uadp_value_record *column, size_t length, uint8_t *out, size_t room)
{
    static float samples[UADP_MOST_PAYLOAD / 4], cleaned[UADP_MOST_PAYLOAD / 4];
    size_t count = 0, k;

    while (uadp_copy(ping, length, column, count, &samples[count], sizeof samples[count])) {
        count++;
    }
    for (k = 0; k < count; k++) {
        cleaned[k] = median(samples[k > 0 ? k - 1 : k], samples[k], samples[k + 1 < count ? k + 1 : k]);
    }
    return uadp_put_value(UADP_TYPE_FLOAT, UADP_ARRAY, 0, cleaned, count * sizeof cleaned[0], out, room);
}

/* Sends a message in chunks. */
static void send_message(const uint8_t *message, size_t length, uint32_t writer)
{
    uint8_t chunk[UADP_CHUNK_HEADER + CHUNK], datagram[sizeof chunk + 16];
    uadp_datagram_parts parts = UADP_ZERO;
    uadp_result chunks = uadp_chunks(length, CHUNK);
    uint64_t k, i, size, count = is_done(chunks) ? UADP_VALUE(chunks) : 0;

    parts.envelope.publisher_type = UADP_ID_UINT16;
    parts.envelope.publisher = PUBLISHER;
    parts.envelope.payload_header = UADP_HEADER_CHUNK;
    parts.envelope.chunk_writer = writer;
    parts.messages = chunk;
    for (k = 0; k < count; k++) {
        parts.messages_length = UADP_VALUE(uadp_cut(message, length, published, CHUNK, k, chunk, sizeof chunk));
        size = UADP_VALUE(uadp_write(&parts, NULL, datagram, sizeof datagram));
        for (i = 0; i < size; i++) {
            (void)printf("%02X%c", datagram[i], i + 1 < size ? ' ' : '\n');
        }
    }
}

static int is_newer(const uadp_head_record *head)
{
    return (head->items & UADP_ITEM_SEQUENCE) == 0 ||
           UADP_VALUE(uadp_newness(&last, (uint16_t)head->sequence)) == UADP_NEWER;
}

/* Publishes a complete ping. Each field goes out as long as it came in. */
static void publish(size_t length, uint32_t writer)
{
    static uint8_t values[sizeof ping], out[UADP_MOST_DATAGRAM];
    static size_t lengths[sizeof ping];
    uadp_message_parts parts = UADP_ZERO;
    uadp_head_record *head = &parts.head;
    uadp_field_record field;
    uadp_value_record value;
    uadp_result result;

    if (!is_done(uadp_read_message(ping, length, NULL, writer, head))) {
        return;
    }
    if (!head->valid || head->kind != UADP_KEY || head->encoding != UADP_VARIANT || !is_newer(head)) {
        (void)printf("ping left out\n");
        return;
    }
    while (UADP_NUMBER(uadp_next_field(ping, length, NULL, writer, head, &field)) == UADP_DONE) {
        uint8_t *to = values + parts.values_length;
        (void)memcpy(to, ping + field.offset, field.length);
        (void)uadp_value(ping, length, field.offset, UADP_VARIANT, 0, &value);
        if (value.type == UADP_TYPE_FLOAT && value.shape == UADP_ARRAY) {
            (void)put_cleaned(&value, length, to, field.length);
        }
        parts.values_length += field.length;
        lengths[parts.length_count++] = field.length;
    }
    head->items |= UADP_ITEM_SEQUENCE;
    head->sequence = ++published;
    parts.values = values;
    parts.lengths = lengths;
    result = uadp_write_message(&parts, NULL, writer, out, sizeof out);
    if (is_done(result)) {
        send_message(out, UADP_VALUE(result), writer);
    }
}

static void receive(const uint8_t *datagram, size_t length)
{
    uadp_result result = uadp_take_in(&partial, datagram, length, NULL);

    if (UADP_NUMBER(result) == UADP_OTHER_MESSAGE) { /* the ping before is given up */
        (void)uadp_empty(&partial);
        result = uadp_take_in(&partial, datagram, length, NULL);
    }
    if (is_done(result) && UADP_VALUE(uadp_complete(&partial))) {
        publish(UADP_VALUE(uadp_hand_out(&partial)), (uint32_t)partial.record.writer);
        (void)uadp_empty(&partial);
    }
}

int main(int argc, char **argv)
{
    static uint8_t datagram[UADP_MOST_DATAGRAM + 1];
    int k;

    for (k = 1; k < argc; k++) {
        FILE *file = fopen(argv[k], "rb");
        if (file == NULL) {
            perror(argv[k]);
            return EXIT_FAILURE;
        }
        receive(datagram, fread(datagram, 1, sizeof datagram, file));
        (void)fclose(file);
    }
    return EXIT_SUCCESS;
}
