/*
 * include/uadp.h tried on the library: each member of each record by its name, each form of writing, the room that
 * suffices for any input, and how much stack a call takes (left out with an argument). Its last line is `N passed, M
 * failed`.
 */
#include "uadp.h"

#include <pthread.h>
#include <stdio.h>
#include <stdlib.h>
#include <string.h>

static unsigned passed, failed;

#define CHECK(condition) check((condition) ? 1 : 0, #condition, __LINE__)

static void check(int holds, const char *text, int line)
{
    if (holds) {
        passed++;
    } else {
        failed++;
        (void)printf("header: line %d fails: %s\n", line, text);
    }
}

static int done(uadp_result result, uint64_t value)
{
    return UADP_NUMBER(result) == UADP_DONE && UADP_VALUE(result) == value;
}

static int refused(uadp_result result, uint64_t number, uint64_t place)
{
    return UADP_NUMBER(result) == number && UADP_PLACE(result) == place;
}

/* A datagram with every part, of one message with every item. */
static const uint8_t full[] = {
    0xF1, 0xEC, 0x02,                                           /* flags */
    3, 0, 0, 0, 'a', 'b', 'c',                                  /* PublisherId */
    1, 2, 3, 4, 5, 6, 7, 8, 9, 10, 11, 12, 13, 14, 15, 16,      /* DataSetClassId */
    0x0F, 0x12, 0x11, 0x24, 0x23, 0x22, 0x21, 0x32, 0x31, 0x42, 0x41, /* group header */
    1, 0x52, 0x51,                                              /* PayloadHeader */
    0xFE, 0xFF, 0xFF, 0xFF, 0xFF, 0xFF, 0xFF, 0xFF, 2, 1,       /* Timestamp, PicoSeconds */
    2, 0, 'x', 'y',                                             /* promoted fields */
    0xF9, 0x31, 0x62, 0x61, 0xFD, 0xFF, 0xFF, 0xFF, 0xFF, 0xFF, 0xFF, 0xFF, 4, 3, 0x72, 0x71, 4, 3, 2, 1, 8, 7, 6, 5,
    2, 0, 7, 0, 5, 3, 0,                                        /* two fields: 7, a UInt16 */
    9, 0, 0x8A, 2, 0, 0, 0, 0, 0, 0, 0x3F, 0, 0, 0x80, 0x3F,    /* and 9, two Floats */
    0, 0                                                        /* padding */
};
enum { MESSAGE_AT = 54, MESSAGE_LENGTH = sizeof full - MESSAGE_AT };

static void envelope_by_name(void)
{
    uadp_envelope_record e = UADP_ZERO;
    uadp_place_record place = UADP_ZERO;
    const uint8_t class_id[16] = {1, 2, 3, 4, 5, 6, 7, 8, 9, 10, 11, 12, 13, 14, 15, 16};

    CHECK(done(uadp_read(full, sizeof full, NULL, &e), 1));
    CHECK(e.publisher_type == UADP_ID_STRING && e.publisher == 3 && e.publisher_end == 10);
    CHECK(memcmp(full + e.publisher_end - e.publisher, "abc", 3) == 0);
    CHECK(e.has_class_id != 0 && memcmp(e.class_id, class_id, 16) == 0);
    CHECK(e.group == (UADP_GROUP_PRESENT | UADP_GROUP_WRITER_GROUP_ID | UADP_GROUP_VERSION | UADP_GROUP_MESSAGE_NUMBER |
                      UADP_GROUP_SEQUENCE));
    CHECK(e.writer_group_id == 0x1112 && e.group_version == 0x21222324);
    CHECK(e.message_number == 0x3132 && e.sequence == 0x4142);
    CHECK(e.is_chunk == 0 && e.payload_header == UADP_HEADER_IDS && e.count == 1 && e.payload_header_end == 40);
    CHECK(e.has_timestamp != 0 && e.timestamp == -2 && e.has_picoseconds != 0 && e.picoseconds == 258);
    CHECK(e.has_promoted != 0 && e.promoted_size == 2 && e.payload == MESSAGE_AT);
    CHECK(memcmp(full + e.payload - e.promoted_size, "xy", 2) == 0);
    CHECK(e.messages == 1 && e.sizes == UADP_SIZES_REST && e.sizes_at == 0 && e.first_message == MESSAGE_AT);
    CHECK(e.next_message == 0 && e.next_at == MESSAGE_AT);
    CHECK(done(uadp_next_message(full, sizeof full, NULL, &e, &place), 0));
    CHECK(e.next_message == 1 && e.next_at == sizeof full);
    CHECK(place.number == 0 && place.offset == MESSAGE_AT && place.length == MESSAGE_LENGTH && place.writer == 0x5152);
    CHECK(refused(uadp_next_message(full, sizeof full, NULL, &e, &place), UADP_END, 0));
}

static void message_by_name(void)
{
    const uint8_t *message = full + MESSAGE_AT;
    uadp_head_record h = UADP_ZERO;
    uadp_field_record f = UADP_ZERO;

    CHECK(done(uadp_read_message(message, MESSAGE_LENGTH, NULL, UADP_NO_WRITER, &h), 1));
    CHECK(h.valid != 0 && h.encoding == UADP_VARIANT && h.kind == UADP_DELTA);
    CHECK(h.items == (UADP_ITEM_SEQUENCE | UADP_ITEM_TIMESTAMP | UADP_ITEM_PICOSECONDS | UADP_ITEM_STATUS |
                      UADP_ITEM_MAJOR_VERSION | UADP_ITEM_MINOR_VERSION));
    CHECK(h.sequence == 0x6162 && h.timestamp == -3 && h.picoseconds == 0x0304 && h.status == 0x7172);
    CHECK(h.major_version == 0x01020304 && h.minor_version == 0x05060708);
    CHECK(h.cursor_encoding == UADP_VARIANT && h.cursor_indexed != 0 && h.next_field == 0 && h.fields == 2);
    CHECK(h.next_at == 26 && h.fields_end == MESSAGE_LENGTH - 2);
    CHECK(done(uadp_next_field(message, MESSAGE_LENGTH, NULL, UADP_NO_WRITER, &h, &f), 28));
    CHECK(f.type == UADP_TYPE_UINT16 && f.shape == UADP_SCALAR && f.elements == 0 && f.index == 7);
    CHECK(f.offset == 28 && f.length == 3 && h.next_field == 1 && h.next_at == 31);
    CHECK(done(uadp_field(message, MESSAGE_LENGTH, NULL, UADP_NO_WRITER, 1, &f), 33));
    CHECK(f.type == UADP_TYPE_FLOAT && f.shape == UADP_ARRAY && f.elements == 2 && f.index == 9 && f.length == 13);
    CHECK(refused(uadp_field(message, MESSAGE_LENGTH, NULL, UADP_NO_WRITER, 2, &f), UADP_END, 0));
}

/* A message that is opened: each field by the step that meets it, and its end after the last one. */
static void message_opened(void)
{
    const uint8_t *message = full + MESSAGE_AT;
    const uint8_t cut[] = {0x01, 2, 0, 0x01, 0x03, 42, 0xC0};
    const uint8_t over[] = {0x01, 1, 0, 0x03, 0x2A, 0, 9};
    const uint8_t not_valid[] = {0x00, 9};
    uadp_head_record h = UADP_ZERO;
    uadp_field_record f = UADP_ZERO;

    CHECK(done(uadp_open_message(message, MESSAGE_LENGTH, NULL, UADP_NO_WRITER, &h), 1));
    CHECK(h.valid != 0 && h.kind == UADP_DELTA && h.sequence == 0x6162 && h.fields == 2 && h.next_field == 0);
    CHECK(h.next_at == 26 && h.fields_end == 26);
    CHECK(refused(uadp_end_message(message, MESSAGE_LENGTH, &h), UADP_DISAGREE, 26));
    CHECK(done(uadp_next_field(message, MESSAGE_LENGTH, NULL, UADP_NO_WRITER, &h, &f), 28));
    CHECK(done(uadp_next_field(message, MESSAGE_LENGTH, NULL, UADP_NO_WRITER, &h, &f), 33));
    CHECK(refused(uadp_next_field(message, MESSAGE_LENGTH, NULL, UADP_NO_WRITER, &h, &f), UADP_END, 0));
    CHECK(done(uadp_end_message(message, MESSAGE_LENGTH, &h), MESSAGE_LENGTH - 2));
    CHECK(refused(uadp_end_message(message, 45, &h), UADP_CUT_SHORT, 46));

    CHECK(done(uadp_open_message(cut, sizeof cut, NULL, UADP_NO_WRITER, &h), 1));
    CHECK(done(uadp_next_field(cut, sizeof cut, NULL, UADP_NO_WRITER, &h, &f), 3));
    CHECK(done(uadp_next_field(cut, sizeof cut, NULL, UADP_NO_WRITER, &h, &f), 5) == 0);
    CHECK(done(uadp_open_message(over, sizeof over, NULL, UADP_NO_WRITER, &h), 1));
    CHECK(done(uadp_next_field(over, sizeof over, NULL, UADP_NO_WRITER, &h, &f), 3));
    CHECK(refused(uadp_end_message(over, sizeof over, &h), UADP_LEFT_OVER, 6));
    CHECK(done(uadp_open_message(not_valid, sizeof not_valid, NULL, UADP_NO_WRITER, &h), 0) && h.valid == 0);
}

static void walk_by_name(void)
{
    uadp_walk_record w[3];
    const uint8_t two[] = {0x41, 2, 21, 0, 22, 0, 1, 0, 2, 0, 0, 0x01, 0x09};
    const uint8_t cut[] = {0x41, 1, 21, 0, 0x05, 2, 0, 0x01, 0x03, 42, 0xC0};

    CHECK(done(uadp_walk(full, sizeof full, NULL, w, 3), 3));
    CHECK(w[0].what == UADP_WALKED_MESSAGE && w[0].message == 0 && w[0].writer == 0x5152 && w[0].kind == UADP_DELTA);
    CHECK(w[0].encoding == UADP_VARIANT && w[0].sequence == 0x6162 && w[0].offset == MESSAGE_AT);
    CHECK(w[0].length == MESSAGE_LENGTH);
    CHECK(w[2].what == UADP_WALKED_FIELD && w[2].index == 9 && w[2].type == UADP_TYPE_FLOAT);
    CHECK(w[2].shape == UADP_ARRAY && w[2].elements == 2 && w[2].offset == MESSAGE_AT + 33 && w[2].length == 13);
    CHECK(done(uadp_walk(two, sizeof two, NULL, w, 1), 2) && w[0].what == UADP_WALKED_NOT_VALID);
    CHECK(done(uadp_walk(two, sizeof two, NULL, w, 2), 2) && w[1].what == UADP_WALKED_REFUSED && w[1].message == 1);
    CHECK(w[1].writer == 22 && w[1].refusal == UADP_CUT_SHORT && w[1].refusal_place == 1 && w[1].fields == 0);
    CHECK(done(uadp_walk(cut, sizeof cut, NULL, w, 3), 2) && w[0].what == UADP_WALKED_REFUSED && w[0].refusal_place == 6);
    CHECK(w[0].refusal == UADP_NOT_PERMITTED && w[0].fields == 1 && w[0].fields_encoding == UADP_DATA_VALUE);
    CHECK(w[1].what == UADP_WALKED_FIELD && w[1].message == 0 && w[1].index == 0 && w[1].type == UADP_TYPE_DATA_VALUE);
    CHECK(w[1].offset == 7 && w[1].length == 3 && w[1].fields_encoding == 0);
}

static void configuration_by_name(void)
{
    const char *text = "writer\t21\t-\nfield\t5\nwriter\t300\t7\nfield\t10\nfield\t1\n";
    uadp_config_record c = UADP_ZERO;

    CHECK(done(uadp_config(text, strlen(text), &c), 0));
    CHECK(c.writer_count == 2 && c.field_count == 3 && c.ids[0] == 21 && c.ids[1] == 300);
    CHECK(c.sizes[0] == 0 && c.sizes[1] == 7 && c.starts[0] == 0 && c.starts[1] == 1);
    CHECK(c.types[0] == 5 && c.types[1] == 10 && c.types[2] == 1);
    CHECK(refused(uadp_config("writer\t1\t-\nx\n", 13, &c), UADP_BAD_LINE, 2));
    CHECK(done(uadp_config(NULL, 0, &c), 0) && c.writer_count == 0);
}

/* What was read of the full datagram and message, written again from parts. */
static void written_from_parts(void)
{
    uint8_t out[256];
    const uint16_t ids[] = {0x5152};
    const uint16_t indices[] = {7, 9};
    const size_t lengths[] = {3, 13};
    uint8_t values[16];
    uadp_message_parts m = UADP_ZERO;
    uadp_datagram_parts d = UADP_ZERO;

    (void)memcpy(values, full + MESSAGE_AT + 28, 3);
    (void)memcpy(values + 3, full + MESSAGE_AT + 33, 13);
    CHECK(done(uadp_read_message(full + MESSAGE_AT, MESSAGE_LENGTH, NULL, UADP_NO_WRITER, &m.head), 1));
    m.values = values;
    m.values_length = sizeof values;
    m.lengths = lengths;
    m.length_count = 2;
    m.indices = indices;
    m.index_count = 2;
    m.padding = 2;
    CHECK(done(uadp_write_message(&m, NULL, UADP_NO_WRITER, out, sizeof out), MESSAGE_LENGTH));
    CHECK(memcmp(out, full + MESSAGE_AT, MESSAGE_LENGTH) == 0);
    CHECK(refused(uadp_write_message(&m, NULL, UADP_NO_WRITER, out, MESSAGE_LENGTH - 1), UADP_NO_ROOM, 0));
    CHECK(done(uadp_rewrite_message(full + MESSAGE_AT, MESSAGE_LENGTH, NULL, UADP_NO_WRITER, out, sizeof out),
               MESSAGE_LENGTH));

    CHECK(done(uadp_read(full, sizeof full, NULL, &d.envelope), 1));
    d.envelope.count = 99; /* count, promoted_size and a String's length follow from the rest */
    d.envelope.publisher = 99;
    d.envelope.promoted_size = 99;
    d.text = full + 7;
    d.text_length = 3;
    d.ids = ids;
    d.id_count = 1;
    d.promoted = full + MESSAGE_AT - 2;
    d.promoted_length = 2;
    d.messages = full + MESSAGE_AT;
    d.messages_length = MESSAGE_LENGTH;
    CHECK(done(uadp_write(&d, NULL, out, sizeof out), sizeof full) && memcmp(out, full, sizeof full) == 0);
    CHECK(done(uadp_rewrite(full, sizeof full, NULL, out, sizeof out), sizeof full));
}

/* Each form of a datagram, and a slip in each. */
static void forms_of_a_datagram(void)
{
    const char *text = "writer\t21\t2\nwriter\t22\t1\n";
    const uint16_t ids[] = {21, 22};
    const uint16_t lengths[] = {2, 1};
    const uint8_t messages[] = {1, 0, 0};
    const uint8_t several[] = {0x41, 2, 21, 0, 22, 0, 2, 0, 1, 0, 1, 0, 0};
    const uint8_t configured[] = {0x01, 1, 0, 0};
    const uint8_t chunk[] = {0xC1, 0x80, 0x01, 21, 0, 1, 0, 0};
    uint8_t out[64];
    uadp_config_record config = UADP_ZERO;
    uadp_datagram_parts d = UADP_ZERO;

    CHECK(done(uadp_config(text, strlen(text), &config), 0));
    d.messages = messages;
    d.messages_length = sizeof messages;
    CHECK(refused(uadp_write(&d, NULL, out, sizeof out), UADP_NOT_CONFIGURED, 0));
    CHECK(done(uadp_write(&d, &config, out, sizeof out), sizeof configured) && memcmp(out, configured, 4) == 0);
    d.ids = ids;
    d.id_count = 1;
    CHECK(refused(uadp_write(&d, &config, out, sizeof out), UADP_DISAGREE, 0));

    d.envelope.payload_header = UADP_HEADER_IDS;
    d.id_count = 2;
    d.lengths = lengths;
    d.length_count = 2;
    CHECK(done(uadp_write(&d, NULL, out, sizeof out), sizeof several) && memcmp(out, several, sizeof several) == 0);
    d.length_count = 1;
    CHECK(refused(uadp_write(&d, NULL, out, sizeof out), UADP_DISAGREE, 0));
    d.id_count = 1;
    CHECK(refused(uadp_write(&d, NULL, out, sizeof out), UADP_DISAGREE, 0));

    d.envelope.payload_header = UADP_HEADER_CHUNK;
    d.envelope.chunk_writer = 21;
    CHECK(refused(uadp_write(&d, NULL, out, sizeof out), UADP_DISAGREE, 0));
    d.id_count = 0;
    d.length_count = 0;
    CHECK(done(uadp_write(&d, NULL, out, sizeof out), sizeof chunk) && memcmp(out, chunk, sizeof chunk) == 0);
}

/* A number that does not fit its item is 6, after reading's numbers; the largest that fits is written. */
static void numbers_that_do_not_fit(void)
{
    const uint8_t message[] = {1};
    const uint16_t id = 21;
    uint16_t many[257];
    uint16_t lengths[257];
    uint8_t messages[257];
    uint8_t out[2000];
    uadp_datagram_parts d = UADP_ZERO;
    uadp_message_parts m = UADP_ZERO;
    size_t k;

    d.envelope.payload_header = UADP_HEADER_IDS;
    d.envelope.group = UADP_GROUP_PRESENT | UADP_GROUP_SEQUENCE;
    d.ids = &id;
    d.id_count = 1;
    d.messages = message;
    d.messages_length = sizeof message;
    d.envelope.sequence = 65535;
    CHECK(done(uadp_write(&d, NULL, out, sizeof out), 8) && out[2] == 0xFF && out[3] == 0xFF);
    d.envelope.sequence = 65536;
    CHECK(refused(uadp_write(&d, NULL, out, sizeof out), UADP_DISAGREE, 0));
    d.envelope.group = UADP_GROUP_PRESENT | UADP_GROUP_MESSAGE_NUMBER;
    d.envelope.message_number = 65536;
    CHECK(refused(uadp_write(&d, NULL, out, sizeof out), UADP_DISAGREE, 0));
    d.envelope.message_number = 0;
    CHECK(refused(uadp_write(&d, NULL, out, sizeof out), UADP_NOT_PERMITTED, 0));
    d.envelope.group = 0;
    d.envelope.publisher_type = UADP_ID_BYTE;
    d.envelope.publisher = 300;
    CHECK(refused(uadp_write(&d, NULL, out, sizeof out), UADP_DISAGREE, 0));
    d.envelope.has_timestamp = 1;
    d.envelope.has_picoseconds = 1;
    d.envelope.picoseconds = 70000;
    CHECK(refused(uadp_write(&d, NULL, out, sizeof out), UADP_NOT_PERMITTED, 0));
    d.envelope.picoseconds = 9999;
    d.envelope.publisher = 255;
    CHECK(done(uadp_write(&d, NULL, out, sizeof out), 17));

    for (k = 0; k < 257; k++) {
        many[k] = 21;
        lengths[k] = 1;
        messages[k] = 1;
    }
    d.ids = many;
    d.lengths = lengths;
    d.messages = messages;
    d.id_count = d.length_count = d.messages_length = 255;
    CHECK(done(uadp_write(&d, NULL, out, sizeof out), 14 + 255 * 5));
    d.id_count = d.length_count = d.messages_length = 256;
    CHECK(refused(uadp_write(&d, NULL, out, sizeof out), UADP_DISAGREE, 0));
    d.envelope.picoseconds = 10000;
    CHECK(refused(uadp_write(&d, NULL, out, sizeof out), UADP_NOT_PERMITTED, 0));

    m.heartbeat = 1;
    m.head.items = UADP_ITEM_SEQUENCE;
    m.head.sequence = 65535;
    CHECK(done(uadp_write_message(&m, NULL, UADP_NO_WRITER, out, sizeof out), 3));
    m.head.sequence = 70000;
    CHECK(refused(uadp_write_message(&m, NULL, UADP_NO_WRITER, out, sizeof out), UADP_DISAGREE, 0));
    m.head.items |= UADP_ITEM_PICOSECONDS;
    m.head.picoseconds = 70000;
    CHECK(refused(uadp_write_message(&m, NULL, UADP_NO_WRITER, out, sizeof out), UADP_NOT_PERMITTED, 0));
}

/* Picoseconds of 10,000 and up read as 9,999; a datagram written again holds that, and its message keeps its own. */
static void picoseconds_held(void)
{
    uint8_t sent[] = {0xD1, 0x60, 9, 1, 21, 0, 1, 2, 3, 4, 5, 6, 7, 8, 0x10, 0x27, 0x81, 0x20, 0xFF, 0xFF};
    uint8_t held[] = {0xD1, 0x60, 9, 1, 21, 0, 1, 2, 3, 4, 5, 6, 7, 8, 0x0F, 0x27, 0x81, 0x20, 0xFF, 0xFF};
    uint8_t message[] = {0x81, 0x20, 0x0F, 0x27};
    uint8_t out[32];
    uadp_envelope_record e = UADP_ZERO;
    uadp_head_record h = UADP_ZERO;

    CHECK(done(uadp_read(sent, sizeof sent, NULL, &e), 1));
    CHECK(e.has_picoseconds != 0 && e.picoseconds == 9999);
    CHECK(done(uadp_rewrite(sent, sizeof sent, NULL, out, sizeof out), sizeof sent));
    CHECK(memcmp(out, held, sizeof held) == 0);
    CHECK(done(uadp_read_message(sent + 16, 4, NULL, UADP_NO_WRITER, &h), 1));
    CHECK(h.items == UADP_ITEM_PICOSECONDS && h.picoseconds == 9999);
    CHECK(done(uadp_rewrite_message(sent + 16, 4, NULL, UADP_NO_WRITER, out, sizeof out), sizeof message));
    CHECK(memcmp(out, message, sizeof message) == 0);
    CHECK(refused(uadp_read(sent, 15, NULL, &e), UADP_CUT_SHORT, 14));
}

/* A message cut, taken in by two partials in another order, combined and handed out. */
static void reassembled(void)
{
    static uint8_t payload[2][64], marks[2][UADP_MARKS_SIZE(64)];
    const uint8_t message[] = {1, 2, 0, 5, 3, 0, 10, 0, 0, 0, 63};
    uint8_t cut[32], datagram[64];
    uadp_partial a = UADP_ZERO, b = UADP_ZERO;
    uadp_datagram_parts d = UADP_ZERO;
    uadp_partial *const into[] = {&b, &a, &b};
    uint64_t k;

    (void)memset(marks, 1, sizeof marks);
    a.payload = payload[0];
    a.marks = marks[0];
    b.payload = payload[1];
    b.marks = marks[1];
    a.room = b.room = 64;
    d.envelope.publisher_type = UADP_ID_STRING;
    d.text = full + 7;
    d.text_length = 3;
    d.envelope.payload_header = UADP_HEADER_CHUNK;
    d.envelope.chunk_writer = 21;
    d.envelope.group = UADP_GROUP_PRESENT | UADP_GROUP_WRITER_GROUP_ID;
    d.envelope.writer_group_id = 0x0605;
    d.messages = cut;
    for (k = 0; k < 3; k++) {
        uadp_result r = uadp_cut(message, sizeof message, 0x0807, 4, k, cut, sizeof cut);
        CHECK(done(r, UADP_CHUNK_HEADER + (k < 2 ? 4u : 3u)));
        d.messages_length = UADP_VALUE(r);
        r = uadp_write(&d, NULL, datagram, sizeof datagram);
        CHECK(UADP_NUMBER(r) == UADP_DONE && done(uadp_take_in(into[k], datagram, UADP_VALUE(r), NULL), 0));
    }
    CHECK(refused(uadp_cut(message, sizeof message, 0x0807, 4, 3, cut, sizeof cut), UADP_END, 0));
    CHECK(UADP_MARKS_SIZE(1) == 1 && UADP_MARKS_SIZE(8) == 1 && UADP_MARKS_SIZE(9) == 2 && UADP_MARKS_SIZE(0) == 0);
    CHECK(sizeof marks[0] == 8 && a.marks[0] == 0xF0 && a.marks[1] == 0 && b.marks[0] == 0x0F && b.marks[1] == 0x07);
    CHECK(done(uadp_complete(&a), 0) && refused(uadp_hand_out(&a), UADP_NOT_COMPLETE, 0));
    k = 0;
    CHECK(done(uadp_progress(&a, &k), 4) && k == sizeof message && a.record.covered == 4);
    CHECK(done(uadp_combine(&a, &b), 0) && done(uadp_complete(&a), 1) && done(uadp_hand_out(&a), sizeof message));
    CHECK(done(uadp_progress(&a, NULL), sizeof message) && a.record.covered == sizeof message);
    a.record.covered = 12;
    CHECK(refused(uadp_complete(&a), UADP_UNSOUND, 0) && refused(uadp_progress(&a, &k), UADP_UNSOUND, 0));
    a.record.covered = 10;
    CHECK(done(uadp_complete(&a), 0) && refused(uadp_hand_out(&a), UADP_UNSOUND, 0));
    a.record.covered = sizeof message;
    CHECK(memcmp(a.payload, message, sizeof message) == 0);
    CHECK(a.record.started == 1 && a.record.publisher_type == UADP_ID_STRING && a.record.publisher == 3);
    CHECK(a.record.writer == 21 && a.record.number == 0x0807 && a.record.total == sizeof message);
    CHECK(a.record.has_group == 1 && a.record.writer_group_id == 0x0605 && memcmp(a.record.text, "abc", 3) == 0);
    d.envelope.writer_group_id = 0x0606;
    k = UADP_VALUE(uadp_write(&d, NULL, datagram, sizeof datagram));
    CHECK(k > 0 && refused(uadp_take_in(&a, datagram, k, NULL), UADP_OTHER_MESSAGE, 0));
    d.envelope.group = UADP_GROUP_PRESENT;
    k = UADP_VALUE(uadp_write(&d, NULL, datagram, sizeof datagram));
    CHECK(k > 0 && refused(uadp_take_in(&a, datagram, k, NULL), UADP_OTHER_MESSAGE, 0));
    CHECK(done(uadp_empty(&a), 0) && a.record.started == 0 && done(uadp_complete(&a), 0));
    b.room = 4;
    CHECK(refused(uadp_complete(&b), UADP_UNSOUND, 0));
}

/* A DataValue with every part around a Float; a RawData element; Strings in an array; each named number. */
static void values_by_name(void)
{
    static const uint8_t whole[] = {0x3F, 0x0A, 0,    0, 0xC0, 0x7F,                     /* mask, Variant: a NaN */
                                    1,    2,    3,    4, 11,   12,   13, 14, 15, 16, 17, 18, /* status, source time */
                                    21,   22,   31,   32, 33,  34,   35, 36, 37, 38, 41, 42};
    static const uint8_t texts[] = {0x8C, 3, 0, 0, 0, 2, 0, 0, 0, 'o', 'k', 0xFF, 0xFF, 0xFF, 0xFF, 0, 0, 0, 0};
    uadp_value_record v = UADP_ZERO, w = UADP_ZERO;
    uint32_t bits = 0;
    uint8_t out[16];

    CHECK(done(uadp_value(whole, sizeof whole, 0, UADP_DATA_VALUE, 0, &v), sizeof whole));
    CHECK(v.type == UADP_TYPE_FLOAT && v.shape == UADP_SCALAR && v.elements == 0 && v.width == 4 && v.null == 0);
    CHECK(v.first == 2 && v.length == 4 && v.end == sizeof whole && v.variant == 1 && v.status == 6);
    CHECK(v.parts == (UADP_PART_VARIANT | UADP_PART_STATUS | UADP_PART_SOURCE_TIME | UADP_PART_SERVER_TIME |
                      UADP_PART_SOURCE_PICOSECONDS | UADP_PART_SERVER_PICOSECONDS));
    CHECK(v.source_time == 10 && v.source_picoseconds == 18 && v.server_time == 20 && v.server_picoseconds == 28);
    CHECK(uadp_copy(whole, sizeof whole, &v, 0, &bits, sizeof bits) == 1 && bits == 0x7FC00000);
    CHECK(uadp_copy(whole, sizeof whole, &v, 1, &bits, sizeof bits) == 0);
    CHECK(uadp_copy(whole, sizeof whole, &v, 0, out, 8) == 0 && uadp_copy(whole, 5, &v, 0, &bits, sizeof bits) == 0);
    CHECK(refused(uadp_value(whole, sizeof whole - 1, 0, UADP_DATA_VALUE, 0, &w), UADP_CUT_SHORT, 28) && w.type == 0);
    CHECK(done(uadp_value(whole, sizeof whole, 4, UADP_RAW_DATA, UADP_TYPE_UINT16, &w), 6));
    CHECK(w.type == UADP_TYPE_UINT16 && w.first == 4 && w.length == 2 && w.parts == 0 && w.variant == 0);
    CHECK(refused(uadp_value(whole, sizeof whole, 4, UADP_RAW_DATA, UADP_TYPE_STRING, &w), UADP_NOT_TAKEN, 4));
    CHECK(done(uadp_value(texts, sizeof texts, 0, UADP_VARIANT, 0, &v), sizeof texts));
    CHECK(v.type == UADP_TYPE_STRING && v.shape == UADP_ARRAY && v.elements == 3 && v.width == 0 && v.first == 5);
    CHECK(done(uadp_element(texts, sizeof texts, &v, 0, &w), 11) && w.first == 9 && w.length == 2 && w.null == 0);
    CHECK(done(uadp_element(texts, sizeof texts, &v, 1, &w), 15) && w.null == 1 && w.length == 0);
    CHECK(done(uadp_element(texts, sizeof texts, &v, 2, &w), 19) && w.null == 0 && w.length == 0);
    CHECK(w.type == UADP_TYPE_STRING && w.shape == UADP_SCALAR);
    CHECK(refused(uadp_element(texts, sizeof texts, &v, 3, &w), UADP_END, 0));
    CHECK(done(uadp_put_value(UADP_TYPE_FLOAT, UADP_SCALAR, 0, &bits, sizeof bits, out, sizeof out), 5));
    CHECK(memcmp(out, whole + 1, 5) == 0);
    CHECK(done(uadp_put_value(UADP_TYPE_STRING, UADP_SCALAR, 0, "ok", 2, out, sizeof out), 7));
    CHECK(done(uadp_value(out, 7, 0, UADP_VARIANT, 0, &v), 7) && v.first == 5 && v.length == 2);
    CHECK(done(uadp_put_value(UADP_TYPE_UINT16, UADP_NULL_ARRAY, 0, NULL, 0, out, sizeof out), 5));
    CHECK(refused(uadp_put_value(UADP_TYPE_UINT16, UADP_ARRAY, 0, out, 3, out + 8, 8), UADP_DISAGREE, 0));
    CHECK(refused(uadp_put_value(UADP_TYPE_VARIANT, UADP_SCALAR, 0, out, 1, out + 8, 8), UADP_NOT_PERMITTED, 0));
    CHECK(refused(uadp_put_value(UADP_TYPE_FLOAT, UADP_SCALAR, 0, &bits, 4, out, 4), UADP_NO_ROOM, 0));
}

/* Names and their Strings, alone and in an array; a matrix, its dimensions, and its field's record. */
static void names_and_matrices(void)
{
    static const uint8_t name[] = {20, 7, 0, 4, 0, 0, 0, 'H', 'o', 'u', 's'};
    static const uint8_t text[] = {21, 3, 2, 0, 0, 0, 'e', 'n', 1, 0, 0, 0, 'W'};
    static const uint8_t names[] = {0x94, 2, 0, 0, 0, 0, 0, 0xFF, 0xFF, 0xFF, 0xFF, 9, 0, 1, 0, 0, 0, 'a'};
    static const uint8_t message[] = {1, 1, 0,                                                /* one field */
                                      0xC3, 6, 0, 0, 0, 1, 2, 3, 4, 5, 6,                     /* six Bytes */
                                      2, 0, 0, 0, 2, 0, 0, 0, 3, 0, 0, 0};                    /* two by three */
    uadp_value_record v = UADP_ZERO, w = UADP_ZERO;
    uadp_head_record head = UADP_ZERO;
    uadp_field_record field = UADP_ZERO;
    uint8_t byte = 0;

    CHECK(done(uadp_value(name, sizeof name, 0, UADP_VARIANT, 0, &v), sizeof name));
    CHECK(v.type == UADP_TYPE_QUALIFIED_NAME && v.name == 7 && v.text == 7 && v.text_length == 4 && v.locale == 0);
    CHECK(v.dimensions == 0 && v.sizes == 0 && uadp_dimension(name, sizeof name, &v, 0) == 0);
    CHECK(done(uadp_value(text, sizeof text, 0, UADP_VARIANT, 0, &v), sizeof text));
    CHECK(v.type == UADP_TYPE_LOCALIZED_TEXT && v.name == (UADP_TEXT_LOCALE | UADP_TEXT_TEXT));
    CHECK(v.locale == 6 && v.locale_length == 2 && v.text == 12 && v.text_length == 1);
    CHECK(done(uadp_value(names, sizeof names, 0, UADP_VARIANT, 0, &v), sizeof names));
    CHECK(v.elements == 2 && v.dimensions == 1 && uadp_dimension(names, sizeof names, &v, 0) == 2);
    CHECK(done(uadp_element(names, sizeof names, &v, 0, &w), 11) && w.name == 0 && w.text == 0 && w.text_length == 0);
    CHECK(done(uadp_element(names, sizeof names, &v, 1, &w), 18) && w.name == 9 && w.text == 17 && w.text_length == 1);
    CHECK(done(uadp_read_message(message, sizeof message, NULL, UADP_NO_WRITER, &head), 1));
    CHECK(done(uadp_next_field(message, sizeof message, NULL, UADP_NO_WRITER, &head, &field), 3));
    CHECK(field.shape == UADP_ARRAY && field.elements == 6 && field.dimensions == 2 && field.length == 23);
    CHECK(done(uadp_value(message, sizeof message, 3, UADP_VARIANT, 0, &v), sizeof message));
    CHECK(v.shape == UADP_ARRAY && v.elements == 6 && v.dimensions == 2 && v.first == 8 && v.length == 6 && v.sizes == 18);
    CHECK(uadp_dimension(message, sizeof message, &v, 0) == 2 && uadp_dimension(message, sizeof message, &v, 1) == 3);
    CHECK(uadp_dimension(message, sizeof message, &v, 2) == 0 && uadp_dimension(message, 21, &v, 0) == 0);
    CHECK(uadp_copy(message, sizeof message, &v, 5, &byte, 1) == 1 && byte == 6);
    CHECK(uadp_copy(message, sizeof message, &v, 6, &byte, 1) == 0);
}

/* Names and a matrix put: the bytes of Part 6's layouts, told again; each refusal. */
static void names_and_matrices_put(void)
{
    static const uint8_t name[] = {20, 7, 0, 4, 0, 0, 0, 'H', 'o', 'u', 's'};
    static const uint8_t text[] = {21, 3, 2, 0, 0, 0, 'e', 'n', 1, 0, 0, 0, 'W'};
    static const uint8_t only_text[] = {21, 2, 1, 0, 0, 0, 'W'};
    static const uint8_t matrix[] = {0xC3, 6, 0, 0, 0, 1, 2, 3, 4, 5, 6, 2, 0, 0, 0, 2, 0, 0, 0, 3, 0, 0, 0};
    static const int32_t sizes[] = {2, 3}, none[] = {6, 0}, wrong[] = {2, 2}, negative[] = {-2, -3};
    uint8_t out[32], before[32];
    uadp_value_record v = UADP_ZERO;

    memset(out, 0xA5, sizeof out);
    memcpy(before, out, sizeof out);
    CHECK(done(uadp_put_qualified_name(7, "Hous", 4, out, sizeof out), sizeof name));
    CHECK(memcmp(out, name, sizeof name) == 0 && memcmp(out + 11, before + 11, sizeof out - 11) == 0);
    CHECK(done(uadp_value(out, sizeof name, 0, UADP_VARIANT, 0, &v), sizeof name) && v.name == 7 && v.text_length == 4);
    CHECK(done(uadp_put_localized_text("en", 2, "W", 1, out, sizeof out), sizeof text));
    CHECK(memcmp(out, text, sizeof text) == 0);
    CHECK(done(uadp_put_localized_text(NULL, 0, "W", 1, out, sizeof out), sizeof only_text));
    CHECK(memcmp(out, only_text, sizeof only_text) == 0);
    CHECK(done(uadp_put_localized_text(NULL, 0, NULL, 0, out, sizeof out), 2) && out[0] == 21 && out[1] == 0);
    CHECK(done(uadp_put_matrix(UADP_TYPE_BYTE, sizes, 2, matrix + 5, 6, out, sizeof out), sizeof matrix));
    CHECK(memcmp(out, matrix, sizeof matrix) == 0);
    CHECK(done(uadp_value(out, sizeof matrix, 0, UADP_VARIANT, 0, &v), sizeof matrix) && v.dimensions == 2);
    CHECK(uadp_dimension(out, sizeof matrix, &v, 0) == 2 && uadp_dimension(out, sizeof matrix, &v, 1) == 3);
    memcpy(out, before, sizeof out);
    CHECK(refused(uadp_put_qualified_name(65536, "Hous", 4, out, sizeof out), UADP_DISAGREE, 0));
    CHECK(refused(uadp_put_qualified_name(7, "Hous", 4, out, 10), UADP_NO_ROOM, 0));
    CHECK(refused(uadp_lent_put_name(UADP_TYPE_QUALIFIED_NAME, 7, name, 1, name, 1, out, 32), UADP_DISAGREE, 0));
    CHECK(refused(uadp_lent_put_name(UADP_TYPE_LOCALIZED_TEXT, 4, name, 0, name, 0, out, 32), UADP_NOT_PERMITTED, 0));
    CHECK(refused(uadp_lent_put_name(UADP_TYPE_LOCALIZED_TEXT, 1, name, 1, name, 1, out, 32), UADP_DISAGREE, 0));
    CHECK(refused(uadp_lent_put_name(UADP_TYPE_STRING, 0, name, 0, name, 0, out, 32), UADP_NOT_TAKEN, 0));
    CHECK(refused(uadp_lent_put_name(276, 0, name, 0, name, 0, out, 32), UADP_NOT_TAKEN, 0));
    CHECK(refused(uadp_put_matrix(UADP_TYPE_BYTE, none, 2, matrix, 6, out, sizeof out), UADP_BAD_LENGTH, 0));
    CHECK(refused(uadp_put_matrix(UADP_TYPE_BYTE, negative, 2, matrix, 6, out, sizeof out), UADP_BAD_LENGTH, 0));
    CHECK(refused(uadp_put_matrix(UADP_TYPE_BYTE, sizes, 0, matrix, 6, out, sizeof out), UADP_BAD_LENGTH, 0));
    CHECK(refused(uadp_put_matrix(UADP_TYPE_BYTE, wrong, 2, matrix, 6, out, sizeof out), UADP_DISAGREE, 0));
    CHECK(refused(uadp_put_matrix(UADP_TYPE_UINT16, sizes, 2, matrix, 7, out, sizeof out), UADP_DISAGREE, 0));
    CHECK(refused(uadp_put_matrix(UADP_TYPE_STRING, sizes, 2, matrix, 6, out, sizeof out), UADP_NOT_TAKEN, 0));
    CHECK(refused(uadp_put_matrix(UADP_TYPE_NULL, sizes, 2, matrix, 6, out, sizeof out), UADP_NOT_PERMITTED, 0));
    CHECK(refused(uadp_put_matrix(UADP_TYPE_BYTE, sizes, 2, matrix, 6, out, 22), UADP_NO_ROOM, 0));
    CHECK(memcmp(out, before, sizeof out) == 0);
}

static void chunks_by_name(void)
{
    static const uint8_t chunk[] = {0xD1, 0x81, 0x01, 0x67, 0x12, 21, 0, 7, 8, 4, 0, 0, 0, 11, 0, 0, 0, 2, 0, 0, 0, 9, 9};
    static const uint8_t grouped[] = {0xF1, 0x81, 0x01, 0x67, 0x12, 1, 5, 6, 21, 0, 7, 8, 4, 0, 0, 0,
                                      11,   0,    0,    0,    2,    0, 0, 0, 9,  9};
    uadp_chunk_record c = UADP_ZERO;

    CHECK(done(uadp_chunk(chunk, sizeof chunk, NULL, &c), 0x0807));
    CHECK(c.publisher_type == UADP_ID_UINT16 && c.publisher == 4711 && c.publisher_end == 5 && c.writer == 21);
    CHECK(c.number == 0x0807 && c.offset == 4 && c.total == 11 && c.data == 21 && c.data_length == 2);
    CHECK(c.has_group == 0 && c.writer_group_id == 0);
    CHECK(done(uadp_chunk(grouped, sizeof grouped, NULL, &c), 0x0807) && c.data == 24);
    CHECK(c.has_group == 1 && c.writer_group_id == 0x0605 && c.writer == 21);
    CHECK(refused(uadp_chunk(full, sizeof full, NULL, &c), UADP_NOT_TAKEN, 0) && c.total == 11);
    CHECK(done(uadp_chunks(11, 4), 3) && done(uadp_chunks(12, 4), 3) && done(uadp_chunks(16384, 1), 16384));
    CHECK(refused(uadp_chunks(11, 0), UADP_DISAGREE, 0) && refused(uadp_chunks(0, 4), UADP_DISAGREE, 0));
    CHECK(refused(uadp_chunks(16385, 4), UADP_OVER_LIMIT, 0));
}

/* Document 02's probes: a list of writers, connections with one profile and a null string, a WriterGroup. */
static void probes_by_name(void)
{
    static const uint8_t writers[] = {0x91, 0x81, 4, 0x67, 0x12, 1, 3, 2, 0, 0, 0, 21, 0, 0x2C, 1};
    static const uint8_t profiles[] = {0x91, 0x81, 4, 0x67, 0x12, 1,    5,    2,    0,    0,    0, 4,
                                       0,    0,    0, 'u',  'd',  'p', ':', 0xFF, 0xFF, 0xFF, 0xFF, 2, 3};
    static const uint8_t group[] = {0x81, 0x80, 4, 1, 4, 7, 0, 9};
    uadp_envelope_record e = UADP_ZERO;
    uadp_probe_record p = UADP_ZERO;
    uadp_probe_item item = UADP_ZERO;
    uadp_datagram_parts d = UADP_ZERO;
    uint8_t list[64], body[64], out[64];
    size_t n;

    CHECK(done(uadp_read(writers, sizeof writers, NULL, &e), 0) && e.payload_header == UADP_HEADER_PROBE);
    CHECK(done(uadp_probe(writers, sizeof writers, NULL, &p), 5) && p.information_type == UADP_ASKS_WRITERS);
    CHECK(p.is_null == 0 && p.count == 2 && p.list_at == 11 && p.next == 0 && p.next_at == 11);
    CHECK(done(uadp_next_probe_item(writers, sizeof writers, &p, &item), 0) && item.value == 21 && item.number == 0);
    CHECK(done(uadp_next_probe_item(writers, sizeof writers, &p, &item), 1) && item.value == 300);
    CHECK(item.offset == 13 && item.length == 2 && p.next == 2 && p.next_at == 15);
    CHECK(refused(uadp_next_probe_item(writers, sizeof writers, &p, &item), UADP_END, 0) && item.value == 300);
    CHECK(done(uadp_put_probe(&p, writers + 11, 4, body, sizeof body), 10) && memcmp(body, writers + 5, 10) == 0);
    d.envelope.publisher_type = UADP_ID_UINT16;
    d.envelope.publisher = 4711;
    d.envelope.payload_header = UADP_HEADER_PROBE;
    d.messages = body;
    d.messages_length = 10;
    CHECK(done(uadp_write(&d, NULL, out, sizeof out), sizeof writers) && memcmp(out, writers, sizeof writers) == 0);
    CHECK(done(uadp_rewrite(writers, sizeof writers, NULL, out, sizeof out), sizeof writers));
    CHECK(refused(uadp_put_probe(&p, writers + 11, 2, body, sizeof body), UADP_DISAGREE, 0));
    CHECK(refused(uadp_put_probe(&p, writers + 11, 4, body, 9), UADP_NO_ROOM, 0));
    p.information_type = 1;
    CHECK(refused(uadp_put_probe(&p, writers + 11, 4, body, sizeof body), UADP_NOT_TAKEN, 0));

    CHECK(done(uadp_probe(profiles, sizeof profiles, NULL, &p), 5) && p.information_type == UADP_ASKS_CONNECTIONS);
    CHECK(p.include_writer_groups == 2 && p.include_data_set_writers == 3 && p.count == 2);
    CHECK(done(uadp_next_probe_item(profiles, sizeof profiles, &p, &item), 0) && item.value == 0 && item.offset == 15);
    CHECK(item.length == 4 && done(uadp_next_probe_item(profiles, sizeof profiles, &p, &item), 1) && item.value == 1);
    n = UADP_VALUE(uadp_put_string("udp:", 4, list, sizeof list));
    CHECK(n == 8 && done(uadp_put_string(NULL, 0, list + n, sizeof list - n), 4));
    CHECK(done(uadp_put_probe(&p, list, 12, body, sizeof body), 20) && memcmp(body, profiles + 5, 20) == 0);
    CHECK(refused(uadp_put_string("udp:", 4, list, 7), UADP_NO_ROOM, 0));

    CHECK(done(uadp_probe(group, sizeof group, NULL, &p), 3) && p.information_type == UADP_ASKS_WRITER_GROUP);
    CHECK(p.writer_group_id == 7 && p.include_data_set_writers == 9 && p.count == 0 && p.is_null == 0);
    CHECK(refused(uadp_next_probe_item(group, sizeof group, &p, &item), UADP_END, 0));
    CHECK(done(uadp_put_probe(&p, NULL, 0, body, sizeof body), 5) && memcmp(body, group + 3, 5) == 0);
    CHECK(refused(uadp_probe(full, sizeof full, NULL, &p), UADP_NOT_TAKEN, 0) && p.writer_group_id == 7);
}

/* Document 02's salvage as it is read: total 9 with 5 and with 6 bytes covered, total 2 with 1. */
static void salvaged_by_name(void)
{
    static const uint8_t five[] = {0xD1, 0x81, 1, 0x67, 0x12, 21, 0, 7, 0, 0, 0, 0, 0, 9, 0, 0, 0, 5, 0, 0, 0,
                                   1,    2,    0, 3,    7};
    static const uint8_t six[] = {0xD1, 0x81, 1, 0x67, 0x12, 21, 0, 7, 0, 0, 0, 0, 0, 9, 0, 0, 0, 6, 0, 0, 0,
                                  1,    2,    0, 3,    7,    0x99};
    static const uint8_t one[] = {0xD1, 0x81, 1, 0x67, 0x12, 21, 0, 7, 0, 0, 0, 0, 0, 2, 0, 0, 0, 1, 0, 0, 0, 1};
    uint8_t payload[16] = UADP_ZERO, marks[UADP_MARKS_SIZE(16)] = UADP_ZERO;
    uadp_partial p = UADP_ZERO;
    uadp_salvage_record told = UADP_ZERO;
    uadp_field_record list[4];

    p.payload = payload;
    p.marks = marks;
    p.room = sizeof payload;
    CHECK(done(uadp_salvage(&p, NULL, &told, list, 0), 0) && told.holes == 0 && told.count_known == 0);
    CHECK(done(uadp_take_in(&p, five, sizeof five, NULL), 0));
    CHECK(refused(uadp_salvage(&p, NULL, &told, list, 1), UADP_NO_ROOM, 0) && told.total == 0);
    CHECK(done(uadp_salvage(&p, NULL, &told, list, 4), 2) && told.holes == 1 && told.fields == 1);
    CHECK(told.count_known == 1 && told.promised == 2 && told.front == 5 && told.total == 9);
    CHECK(told.encoding == UADP_VARIANT && list[0].offset == 5 && list[0].length == 4);
    CHECK(list[1].type == UADP_TYPE_BYTE && list[1].index == 0 && list[1].offset == 3 && list[1].length == 2);
    CHECK(list[1].dimensions == 0 && list[1].shape == UADP_SCALAR);
    CHECK(done(uadp_take_in(&p, six, sizeof six, NULL), 0));
    CHECK(refused(uadp_salvage(&p, NULL, &told, list, 0), UADP_NOT_TAKEN, 5) && told.front == 5);
    p.record.covered = 10;
    CHECK(refused(uadp_salvage(&p, NULL, &told, list, 4), UADP_UNSOUND, 0));
    CHECK(done(uadp_empty(&p), 0) && done(uadp_take_in(&p, one, sizeof one, NULL), 0));
    CHECK(refused(uadp_salvage(&p, NULL, &told, list, 4), UADP_CUT_SHORT, 1));
}

static void newness(void)
{
    uadp_sequence_record s = UADP_ZERO;

    CHECK(done(uadp_newness(&s, 5), UADP_NEWER) && s.seen == 1 && s.last == 5);
    CHECK(done(uadp_newness(&s, 5), UADP_OLD_OR_SAME));
    CHECK(done(uadp_newness(&s, 16390), UADP_INVALID) && s.last == 5);
}

static void words_and_version(void)
{
    char version[32];

    CHECK(strcmp(uadp_number_text(UADP_DONE), "done") == 0);
    CHECK(strcmp(uadp_number_text(UADP_LEFT_OVER), "bytes left over") == 0);
    CHECK(strcmp(uadp_number_text(UADP_BAD_LINE), "bad configuration line") == 0);
    CHECK(strcmp(uadp_number_text(17), "unknown number") == 0);
    (void)snprintf(version, sizeof version, "%d.%d.%d", UADP_VERSION_MAJOR, UADP_VERSION_MINOR, UADP_VERSION_PATCH);
    CHECK(strcmp(version, EXPECTED_VERSION) == 0 && strcmp(UADP_VERSION_TEXT, EXPECTED_VERSION) == 0);
    CHECK(uadp_version() == UADP_VERSION_NUMBER);
}

/* ---- the most that a datagram gives ---- */

static uint8_t most[UADP_MOST_DATAGRAM];
static char listing[UADP_MOST_LISTING];

/* One configured writer's message of null Variants: a record for the message and for each byte after its FieldCount. */
static void most_of_a_walk(void)
{
    uadp_config_record config = UADP_ZERO;
    size_t fields = sizeof most - 4;

    CHECK(done(uadp_config("writer\t1\t-\n", 11, &config), 0));
    (void)memset(most, 0, sizeof most);
    most[0] = 0x01;
    most[1] = 0x01;
    most[2] = (uint8_t)(fields % 256);
    most[3] = (uint8_t)(fields / 256);
    CHECK(done(uadp_walk(most, sizeof most, &config, NULL, 0), UADP_MOST_WALK));
}

/* As many messages as it takes to have numbers of three digits, the last of empty DataValues. */
static void most_of_a_listing(void)
{
    enum { COUNT = 110, HEADER = 2 + 4 * COUNT };
    size_t last = sizeof most - HEADER - (COUNT - 1), fields = last - 3, k;
    uadp_result r;

    (void)memset(most, 0, sizeof most);
    most[0] = 0x41;
    most[1] = COUNT;
    for (k = 0; k < COUNT; k++) {
        size_t size = k + 1 < COUNT ? 1 : last;
        most[2 + 2 * COUNT + 2 * k] = (uint8_t)(size % 256);
        most[2 + 2 * COUNT + 2 * k + 1] = (uint8_t)(size / 256);
    }
    most[sizeof most - last] = 0x05;
    most[sizeof most - last + 1] = (uint8_t)(fields % 256);
    most[sizeof most - last + 2] = (uint8_t)(fields / 256);
    r = uadp_list(most, sizeof most, NULL, listing, sizeof listing);
    CHECK(UADP_NUMBER(r) == UADP_DONE && UADP_VALUE(r) > 1990000u);
    CHECK(uadp_list_length(most, sizeof most, NULL) == r);
}

/* ---- stack ---- */

enum { STACK = 1 << 18, PAINT = 0xA5 };
static uint8_t *stack;
static uint8_t deep[UADP_MOST_DATAGRAM], buffer[UADP_MOST_DATAGRAM];
static size_t deep_length;
static uadp_walk_record records[8];

/* A Variant in an array in a Variant, to 100 levels, in the message of a datagram; every second time in a DataValue. */
static void nest(int data_values)
{
    static const uint8_t front[] = {0x41, 1, 21, 0, 0x01, 1, 0};
    static const uint8_t array[] = {0x98, 1, 0, 0, 0};
    static const uint8_t value[] = {0x17, 1};
    int left = 100;

    (void)memcpy(deep, front, sizeof front);
    deep_length = sizeof front;
    while (left > 1) {
        int wrap = data_values && left > 2;
        (void)memcpy(deep + deep_length, wrap ? value : array, wrap ? sizeof value : sizeof array);
        deep_length += wrap ? sizeof value : sizeof array;
        left -= wrap ? 2 : 1;
    }
    deep[deep_length++] = 0;
}

static void *nothing(void *unused)
{
    return unused;
}

static void *list_it(void *unused)
{
    (void)uadp_list(deep, deep_length, NULL, listing, sizeof listing);
    return unused;
}

static void *walk_it(void *unused)
{
    (void)uadp_walk(deep, deep_length, NULL, records, 8);
    return unused;
}

static void *read_it(void *unused)
{
    uadp_head_record head = UADP_ZERO;
    uadp_field_record field = UADP_ZERO;
    uadp_value_record value = UADP_ZERO;

    (void)uadp_read_message(deep + 4, deep_length - 4, NULL, 21, &head);
    (void)uadp_next_field(deep + 4, deep_length - 4, NULL, 21, &head, &field);
    (void)uadp_field(deep + 4, deep_length - 4, NULL, 21, 0, &field);
    (void)uadp_value(deep, deep_length, 7, UADP_VARIANT, 0, &value);
    return unused;
}

static void *write_it(void *unused)
{
    uadp_message_parts parts = UADP_ZERO;
    size_t length = deep_length - 7;

    parts.values = deep + 7;
    parts.values_length = length;
    parts.lengths = &length;
    parts.length_count = 1;
    (void)uadp_write_message(&parts, NULL, 21, buffer, sizeof buffer);
    (void)uadp_rewrite(deep, deep_length, NULL, buffer, sizeof buffer);
    (void)uadp_rewrite_message(deep + 4, deep_length - 4, NULL, 21, buffer, sizeof buffer);
    return unused;
}

static void *others(void *unused)
{
    unsigned before = passed;

    envelope_by_name();
    configuration_by_name();
    written_from_parts();
    forms_of_a_datagram();
    numbers_that_do_not_fit();
    picoseconds_held();
    reassembled();
    values_by_name();
    names_and_matrices();
    names_and_matrices_put();
    chunks_by_name();
    probes_by_name();
    salvaged_by_name();
    newness();
    passed = before;
    return unused;
}

/* How many bytes of a painted stack a thread has touched. */
static size_t touched(void *(*job)(void *))
{
    pthread_attr_t attributes;
    pthread_t thread;
    size_t untouched = 0;

    (void)memset(stack, PAINT, STACK);
    if (pthread_attr_init(&attributes) != 0 || pthread_attr_setstack(&attributes, stack, STACK) != 0 ||
        pthread_create(&thread, &attributes, job, NULL) != 0 || pthread_join(thread, NULL) != 0) {
        return STACK;
    }
    (void)pthread_attr_destroy(&attributes);
    while (untouched < STACK && stack[untouched] == PAINT) {
        untouched++;
    }
    return STACK - untouched;
}

static void stack_of(const char *name, void *(*job)(void *))
{
    size_t base = touched(nothing), all = touched(job), taken = all > base ? all - base : 0;

    (void)printf("header: stack of %s: %zu bytes\n", name, taken);
    CHECK(taken < UADP_MOST_STACK);
}

static void stack_of_all(void)
{
    int data_values;

    stack = (uint8_t *)aligned_alloc(4096, STACK);
    if (stack == NULL) {
        CHECK(stack != NULL);
        return;
    }
    for (data_values = 0; data_values < 2; data_values++) {
        nest(data_values);
        CHECK(done(uadp_walk(deep, deep_length, NULL, records, 8), 2) && records[0].what == UADP_WALKED_MESSAGE);
        stack_of("listing", list_it);
        stack_of("walking", walk_it);
        stack_of("reading a message and its field", read_it);
        stack_of("writing", write_it);
    }
    stack_of("the others", others);
    free(stack);
}

int main(int argc, char **argv)
{
    (void)argv;
    envelope_by_name();
    message_by_name();
    message_opened();
    walk_by_name();
    configuration_by_name();
    written_from_parts();
    forms_of_a_datagram();
    numbers_that_do_not_fit();
    picoseconds_held();
    reassembled();
    values_by_name();
    names_and_matrices();
    names_and_matrices_put();
    chunks_by_name();
    probes_by_name();
    salvaged_by_name();
    newness();
    words_and_version();
    most_of_a_walk();
    most_of_a_listing();
    if (argc == 1) {
        stack_of_all();
    }
    (void)printf("%u passed, %u failed\n", passed, failed);
    return failed != 0;
}
