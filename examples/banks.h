/*
 * banks.h: two banks of flash for a store of libotap_handheld.a, so that a power cut while one is written leaves the other. Plain C99, to be copied;
 * docs/FIRMWARE.md says what it is for, and tests/banks_test.c cuts it at every byte.
 *
 * A bank is a head of 16 bytes, then the store. The head is eight bytes, then their complements: the layout, a sequence number, the CRC-32 of the store
 * (4 bytes), 0, 0. It is written last. Bits become only 0 in a write and only 1 in an erase, so the halves of a head that was cut are no complements.
 * One byte is enough to count: of two whole banks, one was saved right after the other.
 */
#ifndef BANKS_H
#define BANKS_H

#include "otap.h"

#ifdef __cplusplus
extern "C" {
#endif

enum {
    BANK_HEAD_BYTES = 16,
    BANK_BYTES = BANK_HEAD_BYTES + OTAP_STORE_BYTES,
    NO_BANK = 2 /* the banks are 0 and 1 */
};

/* What is known of the flash between two calls: lost with the power, and found again by banks_load. */
typedef struct {
    unsigned newest;  /* the bank that was last saved or loaded, or NO_BANK */
    uint8_t sequence; /* its number */
} Banks;

/*
 * The firmware's own driver. Erased bytes read FF; a write clears bits and sets none; banks share no sector. A call comes back when it is done;
 * what went wrong is seen when the bytes are read back. Bytes that cannot be read, as a word whose error code is wrong, are to read as anything.
 */
void flash_erase(unsigned bank);
void flash_write(unsigned bank, size_t at, const uint8_t *bytes, size_t length);
void flash_read(unsigned bank, size_t at, uint8_t *bytes, size_t length);

/*
 * Power-on: reads the newer bank that is whole, of this layout, and whose bytes are a store. It writes no flash.
 *   1   store has its OTAP_STORE_BYTES bytes
 *   0   neither bank is such a one: store is a fresh store, and the firmware may tell its user so
 */
int banks_load(Banks *banks, uint8_t *store);

/*
 * Saves a store of OTAP_STORE_BYTES bytes over the older bank; bytes that are already the newest bank's are not written again.
 *   1   it is what banks_load finds from now on
 *   0   the bytes are no store, or the flash did not keep them: banks_load finds what it found before
 */
int banks_save(Banks *banks, const uint8_t *store);

#ifdef __cplusplus
}
#endif

#endif
