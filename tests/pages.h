/*
 * Lent bytes, on a machine with pages: each buffer stands at the very end of its pages, before a page that cannot be touched, or right after one;
 * what may only be read cannot be written. The processor sees an access outside, and the program ends with 1.
 */
#ifndef PAGES_H
#define PAGES_H

#include <signal.h>
#include <stddef.h>
#include <stdint.h>
#include <string.h>
#include <sys/mman.h>
#include <unistd.h>

enum { PAGE = 4096 };

/* Pages between two that cannot be touched, and the buffer that stands in them. */
typedef struct {
    uint8_t *pages;
    size_t room;
    uint8_t *bytes;
    size_t length;
} Lent;

static void on_fault(int signal_number)
{
    static const char text[] = "outside the lent bytes, or writing what is only to be read: ";
    (void)signal_number;
    if (write(2, text, sizeof text - 1) < 0 || write(2, current, strlen(current)) < 0 || write(2, "\n", 1) < 0) {
        _exit(2);
    }
    _exit(1);
}

static void make_room(Lent *lent, size_t room)
{
    void *all = mmap(NULL, room + 2 * PAGE, PROT_NONE, MAP_PRIVATE | MAP_ANONYMOUS, -1, 0);
    must(all != MAP_FAILED, "no pages");
    must(signal(SIGSEGV, on_fault) != SIG_ERR && signal(SIGBUS, on_fault) != SIG_ERR, "no handler");
    lent->pages = (uint8_t *)all + PAGE;
    lent->room = room;
}

/* From now on it may only be read. */
static void seal(Lent *lent)
{
    must(mprotect(lent->pages, lent->room, PROT_READ) == 0, "mprotect");
}

/* A buffer of these bytes, at one end of its pages; written here, then as open as the call needs it. */
static void lend(Lent *lent, int at_end, const uint8_t *bytes, size_t length, int writable)
{
    must(mprotect(lent->pages, lent->room, PROT_READ | PROT_WRITE) == 0, "mprotect");
    lent->bytes = at_end ? lent->pages + lent->room - length : lent->pages;
    lent->length = length;
    memcpy(lent->bytes, bytes, length);
    if (!writable) {
        seal(lent);
    }
}

/* Whether a call kept to what it was lent: had it not, it would not have come back. */
static int kept(const Lent *lent)
{
    (void)lent;
    return 1;
}

#endif
