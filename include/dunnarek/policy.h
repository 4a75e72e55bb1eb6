/*
 * Lookup in and comparison of policy lists, for C99, C11 and C++ from C++11 on.
 *
 * A file holds a list of 1 to POLICY_ENTRY_LIMIT entries, in big-endian numbers: two bytes with the
 * count of bytes after them, the version byte, two bytes with the number of entries, then a record
 * for each entry: local address low, high, remote address low, high (4 bytes each), local port low,
 * high, remote port low, high (2 each), protocol low, high (1 each), direction low, high (1 each, 0
 * or 1), action set (2). The version is 2, or 1 for records without the directions, whose entries
 * cover both.
 * A header is six numbers: local address, remote address, local port, remote port, protocol,
 * direction. An entry matches it where all six are in range; the first entry that matches catches
 * it. Only the protocols 6, 17, 33, 132 and 136 have ports; for every other one a header has both
 * ports 0. The direction is POLICY_IN or POLICY_OUT. Other combinations are no headers.
 *
 * Both calls take any bytes of any length, always return, keep no state, allocate nothing and write
 * nothing but what is said here, so threads may call them at the same time. A pointer whose length
 * is 0 is not read and may be NULL. Any other pointer must be to at least as many bytes as its
 * length says; the buffer of policy_compare must not overlap a file.
 *
 * A thread with a stack of POLICY_STACK_SIZE bytes is enough for both calls. The most that was found
 * is 42,720 bytes for a comparison and 4,632 for a lookup, of which a thread that does nothing takes
 * 4,528; the frames of the deepest chain of calls add up to less than 62,000. The times below are of
 * one server's processor and an older compiler; docs/MEASUREMENTS.md has more.
 */
#ifndef DUNNAREK_POLICY_H
#define DUNNAREK_POLICY_H

#include <stddef.h>
#include <stdint.h>

#ifdef __cplusplus
extern "C" {
#endif

/* Version of the library, for #if. */
#define POLICY_LIBRARY_MAJOR 0
#define POLICY_LIBRARY_MINOR 2
#define POLICY_LIBRARY_PATCH 0

/* The file. Sizes and places go by its version, 1 or 2, which is the byte at POLICY_VERSION_AT. */
#define POLICY_FILE_VERSION 2    /* of every merged file */
#define POLICY_VERSION_AT 2
#define POLICY_HEAD_SIZE 5       /* bytes before the first record */
#define POLICY_RECORD_SIZE(version) ((version) == 1 ? 28 : 30)
#define POLICY_ENTRY_LIMIT 256
#define POLICY_FILED_LIMIT 32    /* entries of a list that a party files with the merger */
#define POLICY_FILE_SIZE(version, entries) (POLICY_HEAD_SIZE + POLICY_RECORD_SIZE(version) * (entries))
#define POLICY_LONGEST_FILE POLICY_FILE_SIZE(2, POLICY_ENTRY_LIMIT)

/* Where the two bytes of an entry's action set stand in its file. */
#define POLICY_ACTIONS_AT(version, entry) (POLICY_FILE_SIZE(version, (entry) + 1) - 2)

/* Bytes of a header: addresses of 4, ports of 2, protocol of 1, direction of 1. */
#define POLICY_HEADER_SIZE 14

/* Directions. */
#define POLICY_IN 0
#define POLICY_OUT 1

/* Stack of a thread that calls. */
#define POLICY_STACK_SIZE 65536

/* Actions: a set is the sum of those it has. The gateway names the fourteen from bit 2 to bit 15. */
#define POLICY_DISCARD 0x0001u
#define POLICY_BYPASS 0x0002u
#define POLICY_PROTECT(bit) (1u << (bit))

/* Why a file is refused. The first that applies, in this order. */
#define POLICY_MISSIZED 1u /* fewer than 5 bytes, or not as many as the file's length says */
#define POLICY_VERSION 2u  /* the version byte is not 1 or 2 */
#define POLICY_COUNT 3u    /* no entry, more than 256, or not as many as the length has room for */
#define POLICY_CROSSED 4u  /* an entry has a low above its high, or a direction above 1 */
#define POLICY_GAP 5u      /* some header is caught by no entry (policy_compare only) */

/* What policy_lookup returns besides an entry's number; more than this is a refusal. */
#define POLICY_UNCAUGHT 256u

/* What policy_compare returns besides refusals. */
#define POLICY_REFINES 0u
#define POLICY_DOES_NOT_REFINE 1u

/*
 * The number of the entry that catches a header, counted from 0 and so at most 255;
 * POLICY_UNCAUGHT if none does or the six numbers are no header; 256 plus the refusal,
 * POLICY_MISSIZED to POLICY_CROSSED, for a file that is no list. Numbers are in the machine's own
 * byte order.
 * Each call checks the whole file before it looks: about 0.09 microseconds at 32 entries, 1 at 256.
 * It runs no instruction that divides.
 */
uint32_t policy_lookup(const uint8_t *file, size_t file_len,
                       uint32_t local, uint32_t remote,
                       uint16_t local_port, uint16_t remote_port,
                       uint8_t protocol, uint8_t direction);

/*
 * Whether the first list refines the second: allows every header a subset of the actions that the
 * second allows it. Their versions need not be the same. POLICY_REFINES, POLICY_DOES_NOT_REFINE, or
 * the number of the refused file, 1 or 2, times 256 plus the refusal. On POLICY_DOES_NOT_REFINE the
 * least header where it doesn't, big-endian, is written to the first POLICY_HEADER_SIZE bytes of the
 * buffer if it has as many; a shorter buffer and every other byte keep their values, and so does the
 * whole buffer on every other answer.
 * Lists of 256 entries as gateways have them take 0.1 to 0.5 milliseconds, the worst known 61.
 */
uint32_t policy_compare(const uint8_t *first, size_t first_len,
                        const uint8_t *second, size_t second_len,
                        uint8_t *header, size_t header_len);

/* The refusal in an answer of policy_lookup, 0 if there is none. */
static inline uint32_t policy_lookup_refusal(uint32_t answer)
{
    return answer > POLICY_UNCAUGHT ? answer - POLICY_UNCAUGHT : 0;
}

/* The number of the file that an answer of policy_compare refuses, 1 or 2; 0 if it refuses none. */
static inline uint32_t policy_compare_file(uint32_t answer)
{
    return answer / 256;
}

/* The refusal in an answer of policy_compare, 0 if there is none. */
static inline uint32_t policy_compare_refusal(uint32_t answer)
{
    return answer < 256 ? 0 : answer % 256;
}

#ifdef __cplusplus
}
#endif

#endif
