/*
 * What the officer presses is what the officer sees: two tasks, and a message between drawing and PTT. The screen task takes each row's name together with
 * what stands behind it, under one hold of the lock, and keeps both; then the radio task commits a message after which two groups have changed places and a
 * line is gone; then PTT is pressed. Called is the target that was kept with the name that was drawn, never the row as it is now. Each turn is handed over
 * by hand, so that every run is the same; examples/ptt.out is what it prints. The first answer that is not what it must be ends it with 1.
 */
#define _POSIX_C_SOURCE 200809L
#include "otap.h"
#include "text.h"

#include <pthread.h>
#include <stdio.h>
#include <stdlib.h>
#include <string.h>

/* Patrol in group slot 0, Traffic in slot 1, and the line Center; coding type 0100, eight-bit characters. */
static const uint8_t adding[] = {
    0x02, 0x02, 0x00, 0x00, 0x08, 0x04, 0x08, 0x03,
    0xD1, 0x00, 0x0E, 0x70, 0x00, 0x10, 0x00, 0x01, 'P', 'a', 't', 'r', 'o', 'l', 0x00,      /* add, member; index 0; address 100001 */
    0xD1, 0x00, 0x0F, 0x70, 0x01, 0x10, 0x00, 0x02, 'T', 'r', 'a', 'f', 'f', 'i', 'c', 0x00, /* add, member; index 1; address 100002 */
    0xCA, 0x00, 0x0E, 0x42, 0x01, 0x23, 0x45, 0xFF, 'C', 'e', 'n', 't', 'e', 'r', 0x00       /* add, PABX; one entry: 2345 */
};

/* The two groups change places, and the line is deleted. */
static const uint8_t renaming[] = {
    0x02, 0x02, 0x00, 0x00, 0x08, 0x04, 0x08, 0x03,
    0xD1, 0x00, 0x0F, 0x70, 0x00, 0x10, 0x00, 0x02, 'T', 'r', 'a', 'f', 'f', 'i', 'c', 0x00,
    0xD1, 0x00, 0x0E, 0x70, 0x01, 0x10, 0x00, 0x01, 'P', 'a', 't', 'r', 'o', 'l', 0x00,
    0xCA, 0x00, 0x08, 0x82, 0x01, 0x23, 0x45, 0xFF, 0x00
};

/* A row as it was drawn: its name and its target, taken together. It owns both, so what is committed later does not reach them. */
typedef struct {
    uint32_t table;             /* it says the kind: a group and an individual may have one address */
    uint8_t name[OTAP_ROW_BYTES];
    size_t name_length;
    uint64_t entry;             /* what otap_entry answered */
    uint8_t digits[OTAP_DIGITS];
    size_t digits_length;       /* 0 but for a line */
} DrawnRow;

static uint8_t store[OTAP_STORE_BYTES], scratch[OTAP_SCRATCH_BYTES], reply[OTAP_REPLY_BYTES];
static pthread_mutex_t store_lock = PTHREAD_MUTEX_INITIALIZER, turn_lock = PTHREAD_MUTEX_INITIALIZER;
static pthread_cond_t turned = PTHREAD_COND_INITIALIZER;
static int turn;                /* 0 the screen draws, 1 the radio commits, 2 PTT is pressed */

static void must_be(const char *what, uint64_t is, uint64_t must)
{
    if (is != must) {
        fprintf(stderr, "%s is %lx, must be %lx\n", what, (unsigned long)is, (unsigned long)must);
        exit(1);
    }
}

static void hand_over(int next)
{
    pthread_mutex_lock(&turn_lock);
    turn = next;
    pthread_cond_broadcast(&turned);
    pthread_mutex_unlock(&turn_lock);
}

static void wait_for(int mine)
{
    pthread_mutex_lock(&turn_lock);
    while (turn != mine) {
        pthread_cond_wait(&turned, &turn_lock);
    }
    pthread_mutex_unlock(&turn_lock);
}

/* Under the lock: the name, and what stands behind it. A row that is not shown keeps table 0, and there is nothing to press. */
static void take_row(uint32_t table, uint32_t index, DrawnRow *row)
{
    uint64_t part = otap_row_part(table, index, store, sizeof store, scratch, sizeof scratch);
    memset(row, 0, sizeof *row);
    if (part == 0) {
        return;
    }
    row->table = table;
    row->name_length = otap_part_length(part);
    memcpy(row->name, otap_part_bytes(part, store, scratch), row->name_length);
    row->entry = otap_entry(table, index, store, sizeof store);
    must_be("the number behind a row that is shown", otap_answer_number(row->entry), OTAP_OK);
    if (table == OTAP_LINES || table == OTAP_LINE_SLOTS) {
        row->digits_length = otap_digits_count(otap_entry_digits(table, index, store, sizeof store, row->digits, sizeof row->digits));
    }
}

/* All rows that are drawn together, names and targets, under one hold of the lock. */
static void take_screen(DrawnRow *group, DrawnRow *line)
{
    pthread_mutex_lock(&store_lock);
    take_row(OTAP_GROUPS, 1, group);
    take_row(OTAP_LINES, 0, line);
    pthread_mutex_unlock(&store_lock);
}

static void print_name(const DrawnRow *row)
{
    print_text(row->name, row->name_length);
}

static void print_target(const DrawnRow *row)
{
    size_t at;
    if (row->table == 0) {
        printf("nobody");
    } else if (row->table == OTAP_GROUPS) {
        printf("group %06X", (unsigned)otap_entry_address(row->entry));
    } else {
        printf("%s ", otap_entry_id_type(row->entry) == OTAP_PABX ? "PABX" : "PSTN");
    }
    for (at = 0; at < row->digits_length; at++) {
        printf("%u", (unsigned)row->digits[at]);
    }
}

/* PTT: the row that was drawn says what is called. The store is not asked again, and the lock is not needed. */
static void press(const DrawnRow *drawn)
{
    printf("PTT on ");
    print_name(drawn);
    printf(" calls ");
    print_target(drawn);
    printf("\n");
}

static void draw(const char *title, const DrawnRow *group, const DrawnRow *line)
{
    printf("%s\n  group 1: ", title);
    print_name(group);
    printf("\n  line 0: ");
    print_name(line);
    printf("%s\n", line->table == 0 ? "none" : "");
}

/* What a screen that kept the index of its row, and not its target, would call. */
static void would_call(const DrawnRow *now)
{
    printf("  the row as it is now would call ");
    print_target(now);
    printf("\n");
}

static void *radio_task(void *unused)
{
    uint64_t answer;
    wait_for(1);
    pthread_mutex_lock(&store_lock);
    answer = otap_commit(renaming, sizeof renaming, store, sizeof store, reply, sizeof reply);
    pthread_mutex_unlock(&store_lock);
    must_be("the number of the renaming", otap_answer_number(answer), OTAP_OK);
    printf("a message is committed: the groups change places, and the line is gone\n");
    hand_over(2);
    return unused;
}

static void *screen_task(void *unused)
{
    DrawnRow group, line, group_now, line_now;
    take_screen(&group, &line);
    draw("the screen draws", &group, &line);
    hand_over(1);
    wait_for(2);
    take_screen(&group_now, &line_now);
    press(&group);
    must_be("the group that is called", otap_entry_address(group.entry), 0x100002);
    would_call(&group_now);
    press(&line);
    must_be("whether other digits are called", memcmp(line.digits, "\2\3\4\5", 4) != 0, 0);
    would_call(&line_now);
    draw("the screen draws again", &group_now, &line_now);
    press(&group_now);
    must_be("the group that is called then", otap_entry_address(group_now.entry), 0x100001);
    return unused;
}

int main(void)
{
    pthread_t radio, screen;
    must_be("starting a store", otap_start(store, sizeof store), OTAP_OK);
    must_be("the number of the adding", otap_answer_number(otap_commit(adding, sizeof adding, store, sizeof store, reply, sizeof reply)), OTAP_OK);
    must_be("the radio task", (uint64_t)pthread_create(&radio, NULL, radio_task, NULL), 0);
    must_be("the screen task", (uint64_t)pthread_create(&screen, NULL, screen_task, NULL), 0);
    pthread_join(screen, NULL);
    pthread_join(radio, NULL);
    return 0;
}
