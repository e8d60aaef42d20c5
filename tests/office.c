/*
 * Reports as the office reads them: each parameter and where its parts stand, what is in range and what is not, and messages that are none. Each case was
 * worked out by hand from docs/REPORTS.md. What a set writes is in reports.c, and what is read back of it in read_back.c.
 */
#include "answers.h"

/* A message with a parameter of each type, and one of a type that the set does not know. */
static const uint8_t all[] = {
    2, 2, 0, 0x51, 8, 7, 0x0B, 1, 1, 11,
    0x88, 0, 0x10, 0, 1, 0x05, 0x20, 0, 'A', 0, 0,               /* 10: group contact 0: 100001, background, encryption, priority 2 */
    0x89, 0, 0x10, 3, 0xE9, 0xF7, 0, 0,                          /* 21: individual contact 15: 1003E9, emergency, priority 3 */
    0x8A, 0, 0x80, 0, 0x23, 0x45, 0xFF, 0, 'A', 0, 0,            /* 29: line 0: PABX 2345 */
    0x8B, 0, 0xA8, 0x10, 0, 1,                                   /* 40: the key: group 100001, voice, siren */
    0x8C, 0, 0x14, 0, 'A', 0, 0,                                 /* 46: quick text 5 */
    0x8D, 0, 0x00, 0xE4, 0xC0,                                   /* 53: NZI 1, NP 806 */
    0x8E, 0, 0x0F, 0x10, 0,                                      /* 58: channel 0: 241 */
    0x8F, 0, 0x00, 0x18, 0xA0,                                   /* 63: LAI 1, LA 8, roaming 2, PAR */
    0x90, 0, 33, 0, 0, 'B', 0, 0,                                /* 68: status text 33 */
    0xBF, 1, 1, 1, 2, 3, 4,                                      /* 76: HashCode 1 */
    0xD1, 0x83                                                   /* 83: unknown */
};

/* Each of them: where it starts, its type, flags, index or code, and value; then the byte behind it, text, number or hash, as otap_report_places has them. */
typedef struct {
    uint32_t at, type, flags, index, value, next, text, text_length, number, digits;
} Parameter;

static const Parameter parameters[] = {
    {10, OTAP_ASK_GROUP_CONTACTS, 0x52, 0, 0x100001, 21, 17, 2, 0, 0},
    {21, OTAP_ASK_INDIVIDUAL_CONTACTS, 7, 15, 0x1003E9, 29, 27, 0, 0, 0},
    {29, OTAP_ASK_LINES, 0x10, 0, 0, 40, 36, 2, 33, 4},
    {40, OTAP_ASK_EMERGENCY_KEY, 0x0D, 0, 0x100001, 46, 0, 0, 0, 0},
    {46, OTAP_ASK_QUICK_TEXTS, 0, 5, 0, 53, 49, 2, 0, 0},
    {53, OTAP_ASK_HOME_NUMBERS, 0, 0, 0x00E4C0, 58, 0, 0, 0, 0},
    {58, OTAP_ASK_CHANNELS, 0, 0, 241, 63, 0, 0, 0, 0},
    {63, OTAP_ASK_SYSTEM_CODE, 0, 0, 0x0018A0, 68, 0, 0, 0, 0},
    {68, OTAP_ASK_STATUS_TEXTS, 0, 33, 0, 76, 72, 2, 0, 0},
    {76, OTAP_ASK_HASH, 0, 0, 0, 83, 0, 0, 79, 1},
    {83, 0xD1, 0, 0x1000, 0, 85, 0, 0, 0, 0} /* bit 28, above the index */
};
enum { PARAMETERS = sizeof parameters / sizeof parameters[0], UNPACKED = 23 };

/* What the header unpacks of each, in the order of unpack(): it is 0 of every type that has it not. */
static const uint32_t unpacked[PARAMETERS][UNPACKED] = {
    {0, 0, 0x100001, 0, 1, 0, 2, OTAP_BACKGROUND},
    {15, 0, 0x1003E9, 0, 0, 1, 3},
    {0, 0, 0, OTAP_PABX},
    {0, 0, 0x100001, 0, 0, 0, 0, 0, 0, 0, 0, 1, 1, 0, 1},
    {5},
    {0, 0, 0, 0, 0, 0, 0, 0, 0, 0, 0, 0, 0, 0, 0, 1, 806},
    {0, 0, 0, 0, 0, 0, 0, 0, 0, 0, 0, 0, 0, 0, 0, 0, 0, 241},
    {0, 0, 0, 0, 0, 0, 0, 0, 0, 0, 0, 0, 0, 0, 0, 0, 0, 0, 1, 8, 2, 1},
    {0, 33},
    {0},
    {0, 0, 0, 0, 0, 0, 0, 0, 0, 0, 0, 0, 0, 0, 0, 0, 0, 0, 0, 0, 0, 0, 1}
};

static void unpack(uint64_t entry, uint32_t *to)
{
    const uint32_t values[UNPACKED] = {
        otap_reported_index(entry), otap_reported_code(entry), otap_reported_address(entry), otap_reported_id_type(entry),
        (uint32_t)otap_reported_encryption(entry), (uint32_t)otap_reported_emergency(entry), otap_reported_priority(entry),
        otap_reported_attribute(entry), (uint32_t)otap_reported_broadcast(entry), (uint32_t)otap_reported_ovcm(entry),
        (uint32_t)otap_reported_current(entry), (uint32_t)otap_reported_group(entry), (uint32_t)otap_reported_voice(entry),
        (uint32_t)otap_reported_status(entry), (uint32_t)otap_reported_siren(entry), otap_reported_nzi(entry), otap_reported_np(entry),
        otap_reported_channel(entry), otap_reported_lai(entry), otap_reported_la(entry), otap_reported_roaming(entry),
        (uint32_t)otap_reported_par(entry), (uint32_t)otap_reported_unknown(entry)
    };
    memcpy(to, values, sizeof values);
}

/* The whole answers, and what the header unpacks of them. */
static void parameter_is(const Parameter *is, const uint32_t *values)
{
    uint64_t entry = otap_report_entry(all, sizeof all, is->at), places = otap_report_places(all, sizeof all, is->at);
    uint32_t found[UNPACKED];
    size_t each;
    same("a parameter", is->type | (uint64_t)is->flags << 8 | (uint64_t)is->index << 16 | (uint64_t)is->value << 32, entry, entry);
    same("its places", is->next | (uint64_t)is->text << 16 | (uint64_t)is->text_length << 32 | (uint64_t)is->number << 40 | (uint64_t)is->digits << 56,
         places, places);
    same("its type", is->type, otap_reported_type(entry), is->type);
    unpack(entry, found);
    for (each = 0; each < UNPACKED; each++) {
        same("what is unpacked of it", values[each], found[each], values[each]);
    }
    same("the next", is->next, otap_places_next(places), is->next);
    same("its text", is->text, otap_places_text(places), is->text);
    same("how long that is", is->text_length, otap_places_text_length(places), is->text_length);
    same("its digits, or HashCode", is->digits, otap_places_digits(places), otap_places_hash_code(places));
}

static void each_parameter(void)
{
    uint64_t read = otap_read_report(all, sizeof all), line = otap_report_places(all, sizeof all, 29), hash = otap_report_places(all, sizeof all, 76);
    uint32_t each;
    same("the message", 0x0B010100, read, read);
    same("its number", 0, OTAP_OK, otap_answer_number(read));
    same("total and index", 1, otap_read_total(read), otap_read_index(read));
    same("parameters", 11, PARAMETERS, otap_read_parameters(read));
    same("the first", 10, OTAP_REPORT_FIRST, parameters[0].at);
    for (each = 0; each < PARAMETERS; each++) {
        parameter_is(&parameters[each], unpacked[each]);
    }
    for (each = 0; each < 4; each++) {
        same("a digit", 2 + each, otap_places_digit(line, all, each), 2 + each);
    }
    same("a hash of HashCode 1", OTAP_HASH_OF_4, otap_places_hash_code(hash), 1);
    same("its value", 79, otap_places_hash(hash), 79);
    same("how long that is", 4, otap_places_hash_length(hash), 4);
}

/* Group flags and the key's that the message above has not. */
static void other_flags(void)
{
    static const uint8_t group[] = {0x88, 0, 0x10, 0, 1, 0x3E, 0xCF, 0, 0}, key[] = {0x8B, 0, 0x57, 0, 0, 0};
    uint64_t of_group = otap_report_entry(group, sizeof group, 0), of_key = otap_report_entry(key, sizeof key, 0);
    same("member, broadcast, OVCM, emergency", 0xEC, otap_reported_flags(of_group, OTAP_ASK_GROUP_CONTACTS), 64 * 3 + 32 + 8 + 4);
    same("a member group", 3, OTAP_MEMBER, otap_reported_attribute(of_group));
    same("broadcast and OVCM", 1, (uint64_t)otap_reported_broadcast(of_group), (uint64_t)otap_reported_ovcm(of_group));
    same("index 3", 3, otap_reported_index(of_group), 3);
    same("the current place, status", 0x12, otap_reported_flags(of_key, OTAP_ASK_EMERGENCY_KEY), 16 + 2);
    same("current and status", 1, (uint64_t)otap_reported_current(of_key), (uint64_t)otap_reported_status(of_key));
    same("no address", 0, otap_reported_address(of_key), 0);
}

/* A message of one parameter, or of none. */
static void write_report(const uint8_t *bytes, size_t length)
{
    static const uint8_t head[] = {2, 2, 0, 0, 8, 7, 0x0B, 1, 1};
    memcpy(said.bytes, head, sizeof head);
    said.length = sizeof head;
    put(&said, length > 0);
    memcpy(said.bytes + said.length, bytes, length);
    said.length += length;
}

static uint64_t read_said(void)
{
    return otap_read_report(said.bytes, said.length);
}

/* Parameters at the edges of their ranges: those that are read, and those that are 4 and no parameter. */
static const struct { uint8_t good, length, bytes[24]; } edges[] = {
    {1, 9, {0x88, 0, 0x10, 0, 1, 0xF4, 0x0F, 0, 0}}, {0, 9, {0x88, 0, 0x10, 0, 1, 0x00, 0, 0, 0}}, {0, 9, {0x88, 0, 0x0F, 0xFF, 0xFF, 4, 0, 0, 0}},
    {0, 9, {0x88, 0, 0x10, 0, 0, 4, 0, 0, 0}}, {0, 9, {0x88, 0, 0x10, 0x80, 0, 4, 0, 0, 0}}, {1, 9, {0x88, 0, 0xFF, 0xFF, 0xFF, 4, 0, 0, 0}},
    {0, 9, {0x88, 1, 0x10, 0, 1, 4, 0, 0, 0}}, {0, 9, {0x88, 0x80, 0x10, 0, 1, 4, 0, 0, 0}}, {0, 8, {0x88, 0, 0x10, 0, 1, 4, 0, 0}},
    {1, 8, {0x89, 0, 0x10, 0, 1, 0xFF, 0, 0}}, {0, 8, {0x89, 0, 0, 0, 1, 0, 0, 0}}, {0, 8, {0x89, 5, 0x10, 0, 1, 0, 0, 0}},
    {1, 7, {0x8A, 0, 0xFF, 0xFF, 0x0F, 0, 0}}, {0, 7, {0x8A, 0, 0, 0, 0xFF, 0, 0}}, {0, 7, {0x8A, 0, 0, 0, 0xAF, 0, 0}},
    {1, 16, {0x8A, 0, 0, 0, 1, 0x23, 0x45, 0x67, 0x89, 1, 0x23, 0x45, 0x67, 0xFF, 0, 0}},
    {0, 16, {0x8A, 0, 0, 0, 1, 0x23, 0x45, 0x67, 0x89, 1, 0x23, 0x45, 0x67, 0x8F, 0, 0}},
    {1, 6, {0x8B, 0, 0xBF, 0x10, 0, 1}}, {0, 6, {0x8B, 0, 0x80, 0, 0, 0}}, {1, 6, {0x8B, 0, 0x47, 0, 0, 0}}, {0, 6, {0x8B, 0, 0x40, 0x10, 0, 1}},
    {1, 7, {0x8C, 0, 0xFF, 0, 1, 0, 0}}, {0, 5, {0x8C, 0, 0, 0, 0}}, {0, 7, {0x8C, 0x40, 0, 0, 1, 0, 0}},
    {1, 5, {0x8D, 0, 0xFF, 0xE4, 0xDF}}, {0, 5, {0x8D, 0, 0, 0x64, 0xE0}}, {0, 5, {0x8D, 0x81, 0, 0, 0}},
    {0, 5, {0x8E, 0, 0x0F, 0x00, 0}}, {1, 5, {0x8E, 0, 0x0F, 0x1F, 0xFF}}, {1, 5, {0x8E, 0, 0x28, 0, 0}}, {0, 5, {0x8E, 0, 0x28, 0x10, 0}},
    {1, 5, {0x8F, 0, 0xFF, 0xF8, 0xBF}}, {0, 5, {0x8F, 0, 0, 0x09, 0}}, {0, 5, {0x8F, 0, 0, 0, 0xC0}},
    {0, 6, {0x90, 0, 31, 0, 0, 0}}, {1, 6, {0x90, 0, 32, 0xFF, 0, 0}}, {1, 6, {0x90, 0, 127, 0, 0, 0}}, {0, 6, {0x90, 0, 128, 0, 0, 0}},
    {1, 2, {0xBF, 0}}, {0, 3, {0xBF, 1, 0}}, {1, 7, {0xBF, 1, 1, 0, 0, 0, 0}}, {1, 13, {0xBF, 1, 2, 1, 2, 3, 4, 5, 6, 7, 8, 9, 10}},
    {0, 7, {0xBF, 1, 3, 1, 2, 3, 4}}, {0, 7, {0xBF, 2, 1, 1, 2, 3, 4}}, {0, 6, {0xBF, 1, 1, 1, 2, 3}},
    {1, 2, {0x00, 0x83}}, {1, 2, {0x88, 0x83}}, {1, 2, {0xBF, 0x83}}, {1, 2, {0xFE, 0x83}}, {0, 2, {0xC8, 0x83}}, {0, 2, {0xD0, 0x83}},
    {0, 2, {0xFF, 0x83}}, {0, 2, {0xD1, 0x84}}, {0, 2, {0xD1, 0x03}}, {0, 1, {0xD1}}, {0, 5, {0xCE, 0, 0x0F, 0x10, 0}}
};

static void ranges(void)
{
    size_t each;
    for (each = 0; each < sizeof edges / sizeof edges[0]; each++) {
        uint64_t good = edges[each].good;
        write_report(edges[each].bytes, edges[each].length);
        same("a parameter at its edge", good ? 0x01010100 : 4, read_said(), good ? 0x01010100 : OTAP_BAD_FIELD);
        same("it by itself", good, otap_report_entry(said.bytes, said.length, 10) != 0, good);
        same("its places", good ? said.length : 0, otap_places_next(otap_report_places(said.bytes, said.length, 10)), good ? said.length : 0);
    }
}

/* Texts of as many units: of a contact 16 at most, of a quick text 1 to 23. */
static void texts(unsigned type, unsigned least, unsigned most)
{
    unsigned units;
    for (units = 0; units < 30; units++) {
        static const uint8_t contact[] = {0x89, 0, 0x10, 0, 1, 0}, quick[] = {0x8C, 0, 0};
        write_report(type == 0x89 ? contact : quick, type == 0x89 ? sizeof contact : sizeof quick);
        put_text(&said, units);
        same("a text", 1, (otap_answer_number(read_said()) == OTAP_OK) == (units >= least && units <= most), 1);
        same("a text's bytes", units >= least && units <= most ? 2 * units : 0, otap_places_text_length(otap_report_places(said.bytes, said.length, 10)),
             units >= least && units <= most ? 2 * units : 0);
    }
}

/* The message above with one byte changed: its head, and where an error may stand. */
static const struct { const char *what; uint32_t at, byte, answer; } changes[] = {
    {"reserved bits", 5, 0xF7, 0x0B010100}, {"no length stated", 3, 0, 0x0B010100}, {"another length", 3, 0x50, OTAP_BAD_CARRIER},
    {"another service", 1, 3, OTAP_BAD_CARRIER}, {"a query", 6, 0x0A, OTAP_OTHER_MESSAGE}, {"a request of OTAPVer 2", 6, 0x10, OTAP_OTHER_MESSAGE},
    {"OTAPVer 2", 6, 0x13, OTAP_BAD_VERSION}, {"coding type 0100", 5, 4, OTAP_BAD_FIELD}, {"total 0", 7, 0, OTAP_BAD_FIELD},
    {"index 0", 8, 0, OTAP_BAD_FIELD}, {"index 2 of 1", 8, 2, OTAP_BAD_FIELD}, {"a parameter fewer", 9, 10, OTAP_BAD_FIELD},
    {"a parameter more", 9, 12, OTAP_BAD_FIELD}, {"an error before the last", 77, 0x83, OTAP_BAD_FIELD}, {"an error in 1 of 2", 7, 2, OTAP_BAD_FIELD}
};

static void changed_heads(void)
{
    size_t each;
    for (each = 0; each < sizeof changes / sizeof changes[0]; each++) {
        memcpy(said.bytes, all, sizeof all);
        said.length = sizeof all;
        said.bytes[changes[each].at] = (uint8_t)changes[each].byte;
        same(changes[each].what, changes[each].answer, changes[each].answer, read_said());
    }
    said.bytes[8] = 2;
    same("an error in 2 of 2", 0x0B020200, read_said(), 0x0B020200);
}

/* Messages without parameters, and the shortest and the longest. */
static void heads(void)
{
    static const uint8_t none[1] = {0};
    write_report(none, 0);
    same("no parameters", 0x00010100, read_said(), 0x00010100);
    said.bytes[7] = 2;
    same("no parameters in 1 of 2", 4, OTAP_BAD_FIELD, read_said());
    said.length = 9;
    same("no ParamSum", 4, OTAP_BAD_FIELD, read_said());
    said.length = 7;
    same("the shortest", 4, OTAP_BAD_FIELD, read_said());
    said.length = 6;
    same("too short", 12, OTAP_MESSAGE_LENGTH, read_said());
    memset(said.bytes + 9, 0, OTAP_MESSAGE_BYTES - 8);
    said.length = OTAP_MESSAGE_BYTES;
    same("the longest", 4, OTAP_BAD_FIELD, read_said());
    said.length = OTAP_MESSAGE_BYTES + 1;
    same("too long", 12, OTAP_MESSAGE_LENGTH, read_said());
}

/* A message of 255 parameters, which is as many as one can have, and of one more behind them. */
static void most_parameters(void)
{
    static const uint8_t channel[] = {0x8E, 0, 0x0F, 0x10, 0};
    unsigned each;
    write_report(channel, sizeof channel);
    for (each = 1; each <= 255; each++) {
        same("so many parameters", (uint64_t)each << 24 | 0x010100, read_said(), (uint64_t)each << 24 | 0x010100);
        memcpy(said.bytes + said.length, channel, sizeof channel);
        said.length += sizeof channel;
        said.bytes[9] = (uint8_t)(each + 1);
    }
    same("256 of them", 4, OTAP_BAD_FIELD, read_said());
    said.bytes[9] = 255;
    same("one behind 255", 4, OTAP_BAD_FIELD, read_said());
}

/* What is read can be walked: each parameter ends where the next starts, and the last at the end. */
static void walk(const uint8_t *message, size_t length, uint64_t read)
{
    uint32_t left;
    size_t at = OTAP_REPORT_FIRST;
    for (left = otap_read_parameters(read); left > 0; left--) {
        uint64_t entry = otap_report_entry(message, length, (uint32_t)at), places = otap_report_places(message, length, (uint32_t)at);
        same("a parameter where the one before it ends", 1, entry != 0, 1);
        same("it goes on", 1, otap_places_next(places) >= at + 2 && otap_places_next(places) <= length, 1);
        same("bits that must be 0", 0, 0, entry & 0xFF000000E0000000u);
        same("an unknown type is the last", 1, !otap_reported_unknown(entry) || left == 1, 1);
        at = otap_places_next(places);
    }
    same("the last ends the message", length, at, length);
}

/* Every cut, and every bit changed: it is no report, or one that can be walked. At any byte both calls know a parameter, or none does. */
static void damaged(void)
{
    size_t length, bit;
    uint32_t at, taken = 0;
    for (length = 0; length < sizeof all; length++) {
        memcpy(said.bytes, all, length);
        said.bytes[2] = said.bytes[3] = 0;
        said.length = length;
        same("a cut", length < 7 ? 12 : 4, read_said(), length < 7 ? OTAP_MESSAGE_LENGTH : OTAP_BAD_FIELD);
    }
    for (bit = 0; bit < 8 * sizeof all; bit++) {
        uint64_t read;
        memcpy(said.bytes, all, sizeof all);
        said.length = sizeof all;
        said.bytes[bit / 8] ^= (uint8_t)(1u << bit % 8);
        read = read_said();
        taken += otap_answer_number(read) == OTAP_OK;
        same("a refusal has nothing but its number", 1, otap_answer_number(read) == OTAP_OK || read == otap_answer_number(read), 1);
        if (otap_answer_number(read) == OTAP_OK) {
            walk(said.bytes, said.length, read);
        }
        for (at = 0; at <= sizeof all; at++) {
            same("both calls", otap_report_entry(said.bytes, said.length, at) != 0, otap_report_places(said.bytes, said.length, at) != 0,
                 otap_report_entry(said.bytes, said.length, at) != 0);
        }
    }
    same("some are reports all the same, and some are none", 1, taken > 100 && taken < 8 * sizeof all - 100, 1);
}

/* Behind the end there is nothing, also where the low bits name a parameter; the byte behind one has 16 bits. */
static void far_away(void)
{
    static const uint32_t behind[] = {85, 86, 256 + 10, 0x1000A, 0x8000000Au, 0xFFFFFFFFu};
    static uint8_t far[0x10002];
    size_t each;
    for (each = 0; each < sizeof behind / sizeof behind[0]; each++) {
        same("no parameter", 0, otap_report_entry(all, sizeof all, behind[each]), otap_report_places(all, sizeof all, behind[each]));
    }
    far[65533] = far[65535] = 0xD1;
    far[65534] = far[65536] = 0x83;
    same("the last place", 65535, otap_report_places(far, sizeof far, 65533), 65535);
    same("a place behind it", 0, otap_report_places(far, sizeof far, 65535), 0);
    same("what stands there", 0x100000D1, otap_report_entry(far, sizeof far, 65535), 0x100000D1);
}

int main(void)
{
    each_parameter();
    other_flags();
    ranges();
    texts(0x89, 0, 16);
    texts(0x8C, 1, 23);
    changed_heads();
    heads();
    most_parameters();
    damaged();
    far_away();
    printf("the office reads each parameter where it stands, and nothing else\n");
    return 0;
}
