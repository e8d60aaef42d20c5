/* Wrong libraries that go outside what they are lent, each of which shows in another way: in a guard, to a sanitizer alone, and as two answers that differ. */
#ifndef WRONG_OUTSIDE_H
#define WRONG_OUTSIDE_H

static uint64_t outside(const uint8_t *store, size_t store_length, uint8_t *reply, size_t reply_length, uint64_t answer)
{
    static volatile size_t few = 4; /* so that memset is called */
    switch (WRONG) {
    case 126: reply[-1] ^= 1; return answer; /* writes the byte before the reply buffer */
    case 127: memset(reply + reply_length, reply[reply_length], few); return answer; /* writes behind it what stands there */
    case 128: return answer ^ (uint64_t)(store[store_length] & 1) << 17; /* reads the byte behind the store */
    default: return answer;
    }
}

#endif
