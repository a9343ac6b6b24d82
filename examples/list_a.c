/* The paper's list A, from C: builds its tables, compares them with those of a list whose last page is elsewhere, tries a few
 * calls on the model, records them and reads them back, and prints what was answered.
 *
 *     tools/native capi
 *     cc -I include examples/list_a.c target/native/libcapi.a -o list_a && ./list_a
 */
#include <inttypes.h>
#include <stdio.h>
#include <string.h>

#include "nextizual.h"

#define BASE 0x20000000u
#define CALLS 9

/* Writes a number as so many little-endian bytes. */
static void put(uint8_t *bytes, uint64_t number, int count) {
    for (int i = 0; i < count; i++) bytes[i] = (uint8_t)(number >> 8 * i);
}

/* The number that so many little-endian bytes make. */
static uint64_t get(const uint8_t *bytes, int count) {
    uint64_t number = 0;
    for (int i = 0; i < count; i++) number |= (uint64_t)bytes[i] << 8 * i;
    return number;
}

static void put_record(uint8_t *at, uint32_t from, uint32_t to, uint8_t type, uint8_t access) {
    put(at, from, 4);
    put(at + 4, to, 4);
    put(at + 8, type, 1);
    put(at + 9, access, 3);
}

static void put_call(uint8_t *at, uint8_t kind, uint8_t second, uint32_t address, uint16_t value) {
    put(at, kind, 1);
    put(at + 1, second, 3);
    put(at + 4, address, 4);
    put(at + 8, value, 4);
}

/* Ends a call's line with where its word came from, if it walked. */
static void print_from(uint32_t from) {
    if (from != NX_FROM_NOWHERE) {
        const char *memory = NX_FROM_MEMORY(from) == NX_FROM_ON_CHIP ? "on-chip" : "external";
        printf(", from %s offset %" PRIX32, memory, NX_FROM_OFFSET(from));
    }
    printf("\n");
}

int main(void) {
    static uint8_t records[3 * NX_RECORD_BYTES], memory[8192], external[4], calls[CALLS * NX_CALL_BYTES];
    static uint8_t before[8192], parted[NX_PART_BYTES], out[CALLS * NX_ANSWER_BYTES + NX_STATE_BYTES];
    static uint8_t recording[NX_BLOCK_BYTES], again[CALLS * NX_CALL_BYTES];
    put_record(records, 0x010000, 0x10020000, 1, 3);
    put_record(records + NX_RECORD_BYTES, 0x300000, 0x11200000, 0, 2);
    put_record(records + 2 * NX_RECORD_BYTES, 0x500400, 0x10000C00, 3, 3);
    uint64_t built = nx_build(records, sizeof records, BASE, memory, sizeof memory);
    if (built >> 63) {
        fprintf(stderr, "refused %" PRIu64 " at %" PRIu64 "\n", built >> 32 & 0xFF, built & 0xFFFFFFFF);
        return 1;
    }
    printf("image of %" PRIu64 " bytes\n", built);
    printf("checked: %" PRIX64 "\n", nx_check(memory, sizeof memory, BASE));
    uint64_t listed = nx_list(memory, sizeof memory, BASE, records, sizeof records);
    for (uint64_t at = 0; at < listed; at += NX_RECORD_BYTES) {
        const uint8_t *page = records + at;
        printf("page %06" PRIX64 " to %08" PRIX64 ", type %d, access %d\n", get(page, 4), get(page + 4, 4), page[8], page[9]);
    }

    put_record(records + 2 * NX_RECORD_BYTES, 0x500400, 0x10001000, 3, 3);
    uint64_t earlier = nx_build(records, sizeof records, BASE, before, sizeof before);
    nx_part(memory, built, before, earlier, parted, sizeof parted);
    printf("compared: %" PRIu64 ", the part is of image %" PRIu64 " from offset %" PRIX64 ", %" PRIu64 " word differs\n", get(parted, 4),
           get(parted + 4, 4), get(parted + 8, 8), get(parted + 16, 8));

    put_call(calls, NX_WRITE, 0x1C, 0, BASE >> 16); /* base, high half; the low half is 0 in a fresh device */
    put_call(calls + 12, NX_WRITE, 0x08, 0, 7);     /* control: walking, on, no reset */
    put_call(calls + 24, NX_REQUEST, NX_FOR_READING, 0x012345, 0);
    put_call(calls + 36, NX_REQUEST, NX_FOR_READING, 0x1000000, 0);
    put_call(calls + 48, NX_REQUEST, NX_FOR_WRITING, 0x3ABCDE, 0);
    put_call(calls + 60, NX_DROP, 0, 0, 0);
    put_call(calls + 72, NX_REQUEST, NX_FOR_READING, 0x3ABCDE, 0);
    put_call(calls + 84, NX_READ, 0x1C, 0, 0);
    put_call(calls + 96, NX_SHIFT, 0, 0x5007FF, 0);
    uint64_t written = nx_run(calls, sizeof calls, memory, sizeof memory, BASE, external, sizeof external, 0x10000000,
                              NX_FLAT, 3.5, 0, NX_ROW, 10, 45, out, sizeof out);
    if (written != sizeof out) {
        fprintf(stderr, "a call is not as said\n");
        return 1;
    }
    for (int i = 0; i < CALLS; i++) {
        const uint8_t *answer = out + i * NX_ANSWER_BYTES;
        printf("call %d: %" PRIu64 " %" PRIX64, i, get(answer, 4), get(answer + 8, 8));
        print_from((uint32_t)get(answer + 4, 4));
    }
    const uint8_t *meters = out + CALLS * NX_ANSWER_BYTES + 292;
    printf("fresh %" PRIu64 ", retries %" PRIu64 ", words %" PRIu64 "\n", get(meters, 4), get(meters + 4, 4), get(meters + 8, 4));
    uint64_t recorded = nx_record(calls, sizeof calls, recording, sizeof recording);
    uint64_t read = nx_recorded(recording, recorded, again, sizeof again);
    printf("recording of %" PRIu64 " bytes, check %08" PRIX64 ", read back %s\n", recorded, nx_crc(recording, NX_BLOCK_BYTES - 4),
           read == sizeof calls && memcmp(calls, again, sizeof calls) == 0 ? "as it was" : "otherwise");
    recording[100] ^= 1;
    uint64_t damaged = nx_recorded(recording, recorded, again, sizeof again);
    printf("damaged: refused %" PRIu64 " at block %" PRIu64 "\n", damaged >> 32 & 0xFF, damaged & 0xFFFFFFFF);
    uint64_t found = nx_fetch(memory, sizeof memory, BASE, external, sizeof external, 0x10000000, 0x20000448);
    printf("word at 20000448: memory %" PRIu64 ", offset %" PRIX64 ", %08" PRIX64 "\n",
           found >> 60, found >> 32 & 0xFFFFFFF, found & 0xFFFFFFFF);
    return 0;
}
