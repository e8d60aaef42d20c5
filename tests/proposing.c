/*
 * Short updates as they are proposed (request A14): the part that is written where its tables alone differ, between neighbours in each of the ten parts and at a full
 * area of texts, and each refusal, which writes nothing. Each case was worked out by hand from docs/RULES.md, I5 to I8. Every proposal is then checked, committed and
 * compared; and so are random neighbours.
 */
#include "updates.h"

enum { TURNS = 4000 };

/* The table with texts that a part has alone; 0 of the parts without texts. */
static const uint32_t table_of[OTAP_EXPORT_PARTS + 1] = {0, OTAP_LINES, 0, OTAP_QUICK_TEXTS, 0, OTAP_STATUS_TEXTS, OTAP_GROUPS, OTAP_INDIVIDUALS,
                                                         OTAP_GROUP_CONTACTS, OTAP_INDIVIDUAL_CONTACTS, OTAP_LINE_SLOTS};

/* What was proposed is taken and makes the held store the wanted one, where it has room. */
static void then_taken(int has_room)
{
    static uint8_t after[OTAP_STORE_BYTES];
    says("to a proposal", has_room);
    memcpy(after, held, sizeof after);
    same("its number", has_room ? 0 : 2, has_room ? OTAP_OK : OTAP_NO_ROOM, take(&request, after));
    same("then the same tables", (uint64_t)has_room, (uint64_t)same_tables(after, wanted), (uint64_t)has_room);
}

/* Each kind of export, between a fresh store and one with an entry. */
static void by_hand(void)
{
    static const uint8_t channel[] = {2, 2, 0, 0, 8, 4, 8, 1, 0xCE, 0, 6, 0x40, 1, 0x0F, 0x1F};
    static const uint8_t channels[] = {2, 2, 0, 11, 8, 7, 8, 1, 0xCE, 0, 6, 0xC0, 1, 0x0F, 0x1F};
    static const uint8_t line[] = {2, 2, 0, 0, 8, 4, 8, 1, 0xCA, 0, 8, 0x42, 1, 0x23, 0x4F, 'A', 0};
    static const uint8_t lines[] = {2, 2, 0, 20, 8, 7, 8, 2, 0xCA, 0, 4, 0xC0, 0, 0xCA, 0, 10, 0x42, 1, 0x23, 0x4F, 0, 'A', 0, 0};
    static const uint8_t no_lines[] = {2, 2, 0, 9, 8, 7, 8, 1, 0xCA, 0, 4, 0xC0, 0};
    both_fresh();
    write_bytes(&request, channel, sizeof channel);
    taken_by(wanted);
    proposes("a channel", channels, sizeof channels);
    then_taken(1);
    both_fresh();
    write_bytes(&request, line, sizeof line);
    taken_by(wanted);
    proposes("a line", lines, sizeof lines);
    then_taken(1);
    taken_by(held);
    same("start", 0, OTAP_OK, otap_start(wanted, sizeof wanted));
    proposes("no line", no_lines, sizeof no_lines);
    then_taken(1);
}

/* Entries in every table, channels, and the fixed values. */
static void base(uint8_t *bytes)
{
    uint32_t table;
    same("start", 0, OTAP_OK, otap_start(bytes, OTAP_STORE_BYTES));
    open_request(&request, 2 * OTAP_TABLES + 4);
    for (table = 1; table <= OTAP_TABLES; table++) {
        put_named(&request, table, ADD, 1, 4);
        put_named(&request, table, ADD, 5, 3);
    }
    put_channels(&request, ADD, 3);
    put_fixed(&request);
    taken_by(bytes);
}

/* Changes a part of that: an entry more, one fewer, or another text for one; of the fixed values each by itself. */
enum { WAYS = 3 };
static void put_change(Message *m, uint32_t part, unsigned way)
{
    static const uint8_t key[] = {0x80}, home[] = {0, 0, 0x20}, code[] = {0, 0x10, 0};
    m->bytes[7]++;
    if (part == OTAP_EXPORT_FIXED) {
        put_bytes(m, 0xCB + 2 * way, way == 0 ? key : way == 1 ? home : code, way == 0 ? 1 : 3);
    } else if (part == OTAP_EXPORT_CHANNELS) {
        put_channels(m, way == 0 ? ADD : way == 1 ? DELETE : REPLACE, 1 + way / 2);
    } else if (way == 0) {
        put_named(m, table_of[part], ADD, 9, 2);
    } else {
        put_named(m, table_of[part], DELETE, 5, 0);
        if (way == 2) {
            put_named(m, table_of[part], ADD, 5, 6);
            m->bytes[7]++;
        }
    }
}

/* The held store has the entries, the wanted one is changed in two parts, or twice in one. */
static void neighbours(uint32_t part, uint32_t other, unsigned way)
{
    base(held);
    memcpy(wanted, held, sizeof wanted);
    open_request(&request, 0);
    put_change(&request, part, way);
    taken_by(wanted);
    same("they differ", 1, !same_tables(held, wanted), 1);
    if (other != part) {
        open_request(&request, 0);
        put_change(&request, other, way);
        taken_by(wanted);
    }
}

static void swap(void)
{
    static uint8_t kept[OTAP_STORE_BYTES];
    memcpy(kept, held, sizeof kept);
    memcpy(held, wanted, sizeof held);
    memcpy(wanted, kept, sizeof wanted);
}

/* Each part, in each way and back again; the kept hash is not compared, and the least buffer is enough. */
static void each_part(void)
{
    uint32_t part;
    unsigned way;
    for (part = 1; part <= OTAP_EXPORT_PARTS; part++) {
        for (way = 0; way < 2 * WAYS; way++) {
            neighbours(part, part, way / 2);
            if (way % 2 == 1) {
                swap();
            }
            proposes_part("the part that differs", part);
            then_taken(1);
            open_request(&said, 1);
            put_last(&said);
            same("a hash", 0, OTAP_OK, take(&said, way % 2 == 0 ? held : wanted));
            proposes("the same with a hash", request.bytes, request.length);
            then_taken(1);
            same("a longer buffer", (uint64_t)request.length << 16, propose_with(sizeof held, sizeof wanted, sizeof made), (uint64_t)request.length << 16);
            same("a byte too few", 15, OTAP_SHORT_BUFFER, propose_with(sizeof held, sizeof wanted, OTAP_PROPOSAL_BYTES - 1));
            same("no buffer", 15, OTAP_SHORT_BUFFER, propose_with(sizeof held, sizeof wanted, 0));
        }
    }
}

/* Key, home numbers and system code are one part: any two of them, and all three, are proposed together. */
static void fixed_values(void)
{
    unsigned which, way;
    for (which = 1; which < 8; which++) {
        base(held);
        memcpy(wanted, held, sizeof wanted);
        open_request(&request, 0);
        for (way = 0; way < WAYS; way++) {
            if (which >> way & 1) {
                put_change(&request, OTAP_EXPORT_FIXED, way);
            }
        }
        taken_by(wanted);
        proposes_part("fixed values", OTAP_EXPORT_FIXED);
        then_taken(1);
    }
}

/* 19, but 15 before it. */
static void no_single_part(const char *what)
{
    same(what, 19, OTAP_NO_SINGLE_PART, propose());
    same("a longer buffer", 19, OTAP_NO_SINGLE_PART, propose_with(sizeof held, sizeof wanted, sizeof made));
    same("a byte too few", 15, OTAP_SHORT_BUFFER, propose_with(sizeof held, sizeof wanted, OTAP_PROPOSAL_BYTES - 1));
}

/* Equal tables, with one hash or two, and every two parts; then all ten. */
static void none_or_several(void)
{
    uint32_t part, other;
    unsigned way;
    both_fresh();
    no_single_part("fresh stores");
    base(held);
    base(wanted);
    no_single_part("equal stores");
    open_request(&said, 1);
    put_last(&said);
    same("a hash", 0, OTAP_OK, take(&said, held));
    no_single_part("and a hash");
    for (part = 1; part <= OTAP_EXPORT_PARTS; part++) {
        for (other = 1; other < part; other++) {
            for (way = 0; way < WAYS; way++) {
                neighbours(part, other, way);
                no_single_part("two parts");
            }
        }
    }
    same("start", 0, OTAP_OK, otap_start(held, sizeof held));
    no_single_part("all parts");
    swap();
    no_single_part("and back");
}

/* One entry of a table, by itself. */
static void add_named(uint8_t *bytes, uint32_t table, unsigned key, unsigned units)
{
    open_request(&request, 1);
    put_named(&request, table, ADD, key, units);
    taken_by(bytes);
}

/* Texts of 2,048 units, as many as a hand-held's area has: 62 of 23, 38 of 16, and in this table 4 and 10. Wanted are 10 and 4, the longer one first. */
static void full_areas(uint32_t table)
{
    unsigned key;
    same("start", 0, OTAP_OK, otap_start(held, sizeof held));
    for (key = 2; key < 64; key++) {
        add_named(held, OTAP_QUICK_TEXTS, key, 23);
    }
    for (key = 2; key < 40; key++) {
        add_named(held, OTAP_STATUS_TEXTS, key, 16);
    }
    memcpy(wanted, held, sizeof wanted);
    add_named(held, table, 0, 4);
    add_named(held, table, 1, 10);
    add_named(wanted, table, 0, 10);
    add_named(wanted, table, 1, 4);
}

/* The part of a full area: lists are emptied first, and have room; slots grow one after the other, and on a hand-held the first has none before the second shrinks. */
static void at_full_areas(void)
{
    uint32_t part, table;
    for (part = 1; part <= OTAP_EXPORT_PARTS; part++) {
        table = table_of[part];
        if (table != 0) {
            int slots = part == OTAP_EXPORT_GROUPS || part == OTAP_EXPORT_INDIVIDUALS || part == OTAP_EXPORT_LINE_SLOTS;
            full_areas(table);
            proposes_part("at a full area", part);
            then_taken(!slots || TEXT_ROOM > 4096);
            swap();
            proposes_part("the shorter one first", part);
            then_taken(1);
            swap();
            open_request(&request, table == OTAP_QUICK_TEXTS ? 4 : 2);
            if (table == OTAP_QUICK_TEXTS) { /* an add does not overwrite them */
                put_named(&request, table, DELETE, 0, 0);
                put_named(&request, table, DELETE, 1, 0);
            }
            put_named(&request, table, ADD, 1, 4);
            put_named(&request, table, ADD, 0, 10);
            says("the one that shrinks first", 1);
        }
    }
}

/* The part in which alone both stores differ, by what each exports; 0 where there is none, or several. */
static uint32_t sole_part(void)
{
    static uint8_t theirs[OTAP_EXPORT_BYTES];
    uint32_t part, sole = 0, count = 0;
    for (part = 1; part <= OTAP_EXPORT_PARTS; part++) {
        uint64_t one = otap_export(part, held, sizeof held, theirs, sizeof theirs), other = otap_export(part, wanted, sizeof wanted, buffer, sizeof buffer);
        if (one != other || memcmp(theirs, buffer, otap_export_length(one)) != 0) {
            sole = part;
            count++;
        }
    }
    return count == 1 ? sole : 0;
}

/* The wanted store: a message behind the held one; or some entries of one table, of which one may shrink before another grows. */
static void random_wanted(unsigned kind, unsigned turn)
{
    uint32_t table = 1 + random_below(OTAP_TABLES);
    unsigned entries;
    memcpy(wanted, held, sizeof wanted);
    write_message(&request, kind, turn);
    if (turn % 2 == 0) {
        take(&request, wanted);
        return;
    }
    for (entries = 8; entries > 0; entries--) {
        open_request(&request, 1);
        put_named(&request, table, random_below(4) == 0 ? DELETE : ADD, random_below(16), 1 + random_below(16));
        take(&request, wanted);
    }
}

/* A message to get there: the one that did it, the same with a byte or two changed, or another. */
static void random_request(unsigned kind, unsigned turn)
{
    write_message(&request, kind, turn);
    if (random_below(4) == 0) {
        damage(request.bytes + 8, request.length - 8, 1 + random_below(2));
    } else if (random_below(4) == 0) {
        write_message(&request, random_below(MESSAGE_KINDS), turn);
    }
}

/* Stores that go from message to message, full ones and others: what is said of one and its neighbour, and what is proposed. */
static void random_neighbours(void)
{
    unsigned long yes = 0, written = 0, taken = 0;
    unsigned turn, kind;
    for (turn = 0; turn < TURNS; turn++) {
        if (turn % 5 == 0) {
            fill_store(held, turn % 3 == 0 ? turn % 30 : 0);
        }
        kind = random_below(MESSAGE_KINDS);
        random_wanted(kind, turn);
        random_request(kind, turn);
        says("of random neighbours", is_update());
        yes += (unsigned long)is_update();
        if (sole_part() == 0) {
            no_single_part("random neighbours");
        } else {
            proposes_part("of random neighbours", sole_part());
            then_taken(is_update());
            written++;
            taken += (unsigned long)is_update();
        }
        memcpy(held, wanted, sizeof held);
    }
    printf("%u neighbours: %lu yes; %lu proposals, %lu of them taken\n", turn, yes, written, taken);
    same("each often", 1, yes > 500 && turn - yes > 500 && taken > 500 && turn - written > 500, 1);
    same("some refused, or of a vehicle none", 1, TEXT_ROOM > 4096 ? taken == written : taken + 10 < written, 1);
}

int main(void)
{
    by_hand();
    each_part();
    fixed_values();
    none_or_several();
    at_full_areas();
    random_neighbours();
    return 0;
}
