/* Nextizual: the memory unit's bench model and the builder of its address tables, over numbers and bytes.
 *
 * Link with libcapi.a (tools/native capi writes it to target/native). Every function takes any bytes and numbers, ends, and
 * writes only what is said here; none keeps anything from one call to the next. All numbers in bytes are little-endian.
 * A slice is a pointer and a length in bytes; no pointer is null, also where the length is 0, and `out` or `memory`, which
 * are written, overlap nothing else that is lent in the same call. */
#ifndef NEXTIZUAL_H
#define NEXTIZUAL_H

#include <stddef.h>
#include <stdint.h>

#ifdef __cplusplus
extern "C" {
#endif

/* A call, 12 bytes: kind (1 byte), register offset or access (1), two zero bytes, address (4), value below 65,536 (4). Bytes
 * that a kind does not use are zero. */
#define NX_CALL_BYTES 12
#define NX_WRITE 1   /* a register write: offset and value */
#define NX_READ 2    /* a register read: offset */
#define NX_REQUEST 3 /* a request: access and address */
#define NX_DROP 4    /* drops the pending fault */
#define NX_SHIFT 5   /* a shift report: address */

#define NX_FOR_READING 0 /* the accesses of a request */
#define NX_FOR_WRITING 1

/* An answer, 16 bytes: number (4), where its word came from (4), value (8, two's complement, 0 where there is none). The
 * number is 0 where the call was accepted and has nothing to say, 1 to 12 where it was refused, 21 to 24 for a fault
 * (translation, miss, permission, prefetch), or one of these: */
#define NX_ANSWER_BYTES 16
#define NX_ADDRESS 100  /* the value is a physical address */
#define NX_VALUE 101    /* the value is what a register shows */
#define NX_DISTANCE 102 /* the value is physical minus virtual */

/* Where the word came from: memory * 2^28 + offset in that memory of the last word that the call's walk read, also where the
 * answer is a fault; 0 where the call made no walk or was refused. Requests, retries, prefetches and shift reports walk. */
#define NX_FROM_NOWHERE 0
#define NX_FROM_ON_CHIP 1 /* the memories */
#define NX_FROM_EXTERNAL 2
#define NX_FROM_MEMORY(from) ((from) >> 28)
#define NX_FROM_OFFSET(from) ((from) & 0x0FFFFFFF)

/* The state of a bench, 328 bytes:
 *     0  prefetch, control (2 each); base (4); lock base, victim (2 each); CAM high, CAM low, RAM high, RAM low (2 each), and
 *        the same four of the read registers
 *    28  32 slots of 8 bytes: CAM high, CAM low, RAM high, RAM low (2 each)
 *   284  pending fault: status as its register shows it (1; 0: nothing), access (1), two zero bytes, address (4)
 *   292  meters: fresh requests, retries, words read (4 each)
 *   304  bill: bits of the total and of the smoothed miss figure (8 each; a NaN is 7FF8000000000000)
 *   320  row last read of the on-chip and of the external memory (4 each; FFFFFFFF: none) */
#define NX_STATE_BYTES 328

/* What a memory's words cost, in nanoseconds: flat (a for each word; b is not looked at), or by row (a in the row last read,
 * b in another). */
#define NX_FLAT 0
#define NX_ROW 1

/* A record, 12 bytes: virtual and physical address (4 each), type (1: 0 section, 1 large, 2 small, 3 tiny), access (1: 2 read,
 * 3 both), two zero bytes. A list has at most 1,024; the record after these is refused 10. */
#define NX_RECORD_BYTES 12
#define NX_MOST_RECORDS 1024

/* Builds the tables of a list of records in `memory`, which stands at `base`.
 * Gives the image's length, or, where the list is refused, 2^63 + number * 2^32 + index of the record or count of records
 * (0 for refusal 4); then `memory` is unchanged. Bytes after the image stay. */
uint64_t nx_build(const uint8_t *records, size_t records_len, uint32_t base, uint8_t *memory, size_t memory_len);

/* Checks the image that `memory`, at `base`, holds, whoever built it: the first-level table stands at the start.
 * Gives 0 where the first-level table and every table that it points at lie inside, and each large or small word stands equal
 * over its whole aligned group (16 or 1 words of a coarse table, 64 or 4 of a fine one); or 2^63 + number * 2^32 + address:
 * 4 (0) for a base that is no multiple of 128, a length that is no multiple of 4 or over 131,072, an end over 2^32; 17 for a
 * table that is not wholly inside, by the address of the first-level word that names it (by `base` where the first level
 * itself has no room); 18 for a large or small word whose group is not all equal, by its address. It is the first such word,
 * in first-level order and then by index. */
uint64_t nx_check(const uint8_t *memory, size_t memory_len, uint32_t base);

/* Lists the pages of an image that nx_check accepts, in rising virtual order, one record for each, as nx_build takes them but
 * with an access of 0 or 1 where a page permits nothing. Gives the bytes written to `out`; later bytes stay. Or gives a
 * refusal, `out` unchanged: those of nx_check, then 12 with the number of pages where `out` is too short for them. */
#define NX_MOST_PAGES 16384
uint64_t nx_list(const uint8_t *memory, size_t memory_len, uint32_t base, uint8_t *out, size_t out_len);

/* Compares a new image with a signed one, word by word from their starts. Writes 24 bytes to `out`, later bytes stay, and gives
 * 24; or gives 0, `out` unchanged, where it is shorter:
 *     0  4 where a length is no multiple of 4, else 0
 *     4  whose part remains (4): that of the new image from the first word that differs; where one image is the shorter and
 *        agrees throughout, what the longer one has past its end; of the new one, and empty, where they are equal or refused
 *     8  the offset in its image at which the part begins (8); it runs to the image's end
 *    16  how many words differ over the common length (8); 0 where refused */
#define NX_PART_BYTES 24
#define NX_OF_NEW 1
#define NX_OF_SIGNED 2
uint64_t nx_part(const uint8_t *new_image, size_t new_len, const uint8_t *signed_image, size_t signed_len, uint8_t *out,
                 size_t out_len);

/* Runs the calls in order from a fresh device, fresh meters and a fresh bill, each with these two memories and prices. Writes
 * an answer for each call and then the state to `out`, and gives the number of bytes written; or 0, `out` unchanged, where
 * `calls_len` is no multiple of 12, a call is not as said, a price's kind is over 1, or `out` is too short. */
uint64_t nx_run(const uint8_t *calls, size_t calls_len,
                const uint8_t *on_chip, size_t on_chip_len, uint32_t on_chip_base,
                const uint8_t *external, size_t external_len, uint32_t external_base,
                uint32_t on_chip_kind, double on_chip_a, double on_chip_b,
                uint32_t external_kind, double external_a, double external_b,
                uint8_t *out, size_t out_len);

/* The same from a handed-in state. The bill's figures are `total` and `misses`; the state's own 16 bytes for them are not
 * looked at, and registers and slots are taken as they stand, in range or not. Gives 0, `out` unchanged, also where
 * `state_len` is not 328, or the pending fault's status is none of 0, 1, 2, 4, 8, its access is over 1, or one of its two
 * zero bytes is not zero. */
uint64_t nx_from(const uint8_t *state, size_t state_len, double total, double misses,
                 const uint8_t *calls, size_t calls_len,
                 const uint8_t *on_chip, size_t on_chip_len, uint32_t on_chip_base,
                 const uint8_t *external, size_t external_len, uint32_t external_base,
                 uint32_t on_chip_kind, double on_chip_a, double on_chip_b,
                 uint32_t external_kind, double external_a, double external_b,
                 uint8_t *out, size_t out_len);

/* A recording of a session: blocks of 512 bytes, each the number of its calls (2 bytes), its own number from 0 on (2), 42 calls
 * and the CRC-32 of the first 508 bytes (4). All blocks but the last have 42 calls; bytes of unused calls are zero; no calls
 * make no blocks. At most 65,536 blocks, 2,752,512 calls. */
#define NX_BLOCK_BYTES 512
#define NX_BLOCK_CALLS 42
#define NX_MOST_BLOCKS 65536

/* Writes calls as a recording. Gives the bytes written to `out`; later bytes stay. Or gives a refusal, 2^63 + number * 2^32 +
 * value, `out` unchanged: 16 with the index of the first call that is not as said, is short or is past the most; then 12 with
 * the bytes needed where `out` is too short. */
uint64_t nx_record(const uint8_t *calls, size_t calls_len, uint8_t *out, size_t out_len);

/* Reads the calls of a recording, as nx_run takes them. Gives the bytes written to `out`; later bytes stay. Or gives a refusal,
 * `out` unchanged: 16 with the index of the first block that is short, follows one not full, is past the most, or has a wrong
 * check or number, no calls or over 42, a call that is not as said, or a byte of an unused call that is not zero; then 12 with
 * the bytes needed. What nx_record accepts is read back as it was, and what nx_recorded accepts is what nx_record writes. */
uint64_t nx_recorded(const uint8_t *recording, size_t recording_len, uint8_t *out, size_t out_len);

/* The CRC-32 of bytes (IEEE 802.3, reflected; CBF43926 of "123456789"). */
uint64_t nx_crc(const uint8_t *bytes, size_t bytes_len);

/* The four bytes at a physical address, as memory * 2^60 + offset * 2^32 + word, memory 1 being the on-chip and 2 the
 * external one: above the word it is what an answer says of where its word came from. 0 where neither memory holds all
 * four, or the memories are such as refusal 4 names. */
uint64_t nx_fetch(const uint8_t *on_chip, size_t on_chip_len, uint32_t on_chip_base,
                  const uint8_t *external, size_t external_len, uint32_t external_base,
                  uint32_t address);

#ifdef __cplusplus
}
#endif

#endif
