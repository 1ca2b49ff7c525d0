/* The proved pin store for TLS gateways: the C interface of libtack.a.
 *
 * Every function answers for every input: any bytes, any length, any clock. A pointer may be null only where its length
 * is 0. A table or an output may not overlap another argument. Numbers and alerts are those of the paper; a refusal leaves all
 * lent memory as it was, byte for byte, but for one: 23 of tack_judge may raise one floor, below.
 *
 * The draft has two editions. In edition one an extension holds one tack at most, and break signatures; in edition two it holds
 * one or two tacks. A server sends the extension of one of them, and a table is of one of them. The functions of edition two
 * begin with tack2_.
 */
#ifndef TACK_H
#define TACK_H

#include <stdbool.h>
#include <stddef.h>
#include <stdint.h>

#ifdef __cplusplus
extern "C" {
#endif

/* 9 with the activation (0 disabled, 1 enabled), or 16: malformed. In edition two the activation holds the flags. */
typedef struct {
    uint8_t number, alert, activation;
} tack_reading;

/* A part of the caller's bytes. An absent part, and each part of a malformed extension, is {0, 0}. */
typedef struct {
    size_t start, length;
} tack_span;

/* 9 with the number of bytes written from the start of the output; 25: a part of wrong length, or a wrong activation, flags or
 * clock; 26: the output is too small. */
typedef struct {
    uint8_t number, alert;
    size_t written;
} tack_writing;

/* A verdict: 0 unpinned, 1 confirmed, 2 contradicted (alert 49); or a refusal, 10 to 24 or 27. no_room says that the table had
 * no slot for a pin that was due; the connection has its verdict all the same. */
typedef struct {
    uint8_t number, alert;
    bool no_room;
} tack_judgement;

/* Deletion: 3 deleted, 4 the name is not recorded, or 10 to 12. Starting: 7 started, or 10. */
typedef struct {
    uint8_t number, alert;
} tack_outcome;

/* 5: recorded, without an end; 6: with one; 4: no such record; or 10 to 13. minutes_left is the end minus the given clock, 0 at
 * the end and negative after it. A field without meaning is 0. */
typedef struct {
    uint8_t number, alert, floor;
    uint32_t initial, end;
    int64_t minutes_left;
} tack_inspection;

/* Reads an extension of edition one: is it well-formed, and what is its activation? */
tack_reading tack_extension_read(const uint8_t *bytes, size_t length);

/* The part that holds the tack (166 bytes), and the part that holds the break signatures (128 bytes each). */
tack_span tack_extension_tack(const uint8_t *bytes, size_t length);
tack_span tack_extension_breaks(const uint8_t *bytes, size_t length);

/* Writes an extension from its parts: a tack of 0 or 166 bytes, up to eight break signatures, an activation of 0 or 1. */
tack_writing tack_extension_write(const uint8_t *tack, size_t tack_length,
                                  const uint8_t *breaks, size_t breaks_length,
                                  uint8_t activation, uint8_t *out, size_t out_length);

/* Reads an extension of edition two: one or two tacks, and the flags, whose bit 0 enables the first tack and bit 1 the second.
 * Another bit set, or bit 1 with one tack, is malformed; 16 carries alert 42 here. */
tack_reading tack2_extension_read(const uint8_t *bytes, size_t length);

/* The part that holds the first tack, or the second (166 bytes each). */
tack_span tack2_extension_tack(const uint8_t *bytes, size_t length, bool second);

/* Writes an extension of edition two from its tacks, 166 or 332 bytes, and its flags, by the same rule. */
tack_writing tack2_extension_write(const uint8_t *tacks, size_t tacks_length,
                                   uint8_t flags, uint8_t *out, size_t out_length);

/* Writes the 110 bytes that the signature of a tack covers, for a verifier. */
tack_writing tack_signed_bytes(const uint8_t *tack, size_t tack_length, uint8_t *out, size_t out_length);

/* Whether the bytes are a host name that the store takes: labels of 1 to 63 bytes of letters, 0-9 and hyphen, no hyphen first
 * or last, joined by dots, 253 bytes at most. The letters are of either case: A-Z is taken as a-z, here and in judging,
 * deletion and inspection. */
bool tack_name_well_formed(const uint8_t *name, size_t length);

/* The pin table is an area of 39,432 bytes that the caller keeps, in memory or in a file, and lends to each call. Byte 4 is its
 * edition, 0 for one and 1 for two; bytes 5 to 7 are zero. All zero is the empty table of edition one. In edition two a name
 * may have two records, with different keys. An area of another length is 10, a damaged table 11. The table keeps names in small
 * letters only; one that holds a capital is damaged. Clocks are whole minutes since 1970, 4,294,924,095 at most; above that it is
 * 13. */
#define TACK_TABLE_LENGTH 39432

/* The refusals, the alert in brackets where there is one. 18 to 23 need a tack.
 *
 *   10  the area is not 39,432 bytes          18  the tack key is no P-256 point (51)
 *   11  the table is damaged                  19  the generation is below its own min_generation (50)
 *   12  the name is malformed                 20  the target hash is unequal (47)
 *   13  the clock is above the limit          21  the tack signature is incorrect (51)
 *   14  the clock is before latest            22  the generation is below the stored floor (44)
 *   15  the handshake is not finished         23  the expiration is below the clock (45)
 *   16  the extension is malformed (50)       24  two tacks with one key (42)
 *   17  a break signature is incorrect (51)   27  the table is of the other edition
 *
 * In edition one, where several apply, the lowest is given, but 27 next to 11. In edition two the order is 10, 11, 27, 12 to
 * 16, 24; then 18, 19, 23, 20, 21 of the first tack, and the same of the second; then 22 of either. There 23 is also given at
 * expiration = clock, and 16, 18 to 21 and 24 carry alert 42, the others as above.
 *
 * An expired tack still revokes: where tack_judge answers 23 and the tack's key has a record whose floor is below the tack's
 * min_generation, the floor becomes that value, so a table that is kept in a file is written after a 23 too. No other byte changes,
 * neither latest nor the records that the break signatures name. Every other refusal, and 23 of tack2_judge, changes nothing.
 */

/* Judges one finished connection of edition one and brings the table up to date. spki_sha256 is the SHA-256 of the server's
 * SubjectPublicKeyInfo; bit i of breaks_correct, the lowest being 0, says that break signature i is correct. The extension's
 * bytes are ignored where none came, and so are answers about what the extension does not hold. With learn_disabled a record is
 * made although the server is disabled, as for a scanner that reads tacks before they are enabled; a gateway says false: then a
 * call with activation 0 makes and replaces no record, and no_room is false. */
tack_judgement tack_judge(uint8_t *table, size_t table_length, uint64_t clock,
                          const uint8_t *name, size_t name_length,
                          bool extension_came, const uint8_t *extension, size_t extension_length,
                          const uint8_t *spki_sha256, size_t spki_sha256_length,
                          bool handshake_finished, bool key_is_point, bool signature_correct,
                          uint8_t breaks_correct, bool learn_disabled);

/* The same in edition two, where only enabled tacks make records. Bit 0 of keys_are_points says that the key of the first tack is
 * a P-256 point, bit 1 that the key of the second is; bits 0 and 1 of signatures_correct say that their signatures are correct.
 * Other bits, and bits of absent tacks, are ignored. */
tack_judgement tack2_judge(uint8_t *table, size_t table_length, uint64_t clock,
                           const uint8_t *name, size_t name_length,
                           bool extension_came, const uint8_t *extension, size_t extension_length,
                           const uint8_t *spki_sha256, size_t spki_sha256_length,
                           bool handshake_finished, uint8_t keys_are_points, uint8_t signatures_correct);

/* Deletion, inspection and starting serve tables of both editions. */

/* Removes a name's record, in edition two both records, and each key if no name is left on it. */
tack_outcome tack_delete(uint8_t *table, size_t table_length, const uint8_t *name, size_t name_length);

/* Looks at the first or the second record of a name, by the order of their slots. The clock may lie before the table's
 * latest. */
tack_inspection tack_inspect(const uint8_t *table, size_t table_length,
                             const uint8_t *name, size_t name_length, uint64_t clock, bool second);

/* Makes the empty table of edition one or two, whatever the area held. */
tack_outcome tack_start(uint8_t *table, size_t table_length, bool edition_two);

/* So many bytes are always enough for one recorded call. */
#define TACK_LONGEST_CALL 4452

/* Writes one call as a gateway records it: the arguments of tack_judge besides the table and learn_disabled, the name as it is
 * spelled. A night of recorded calls, one behind the other and all of edition one, is what the program `replay` reads; it judges
 * each with learn_disabled, so that a gateway which judged without it may have been answered otherwise. 9 with the number of
 * bytes written; 25 where a part cannot be recorded: a clock above 32 bits, a name above 300 bytes, a hash that is not of 32
 * bytes, an extension that came and is above 4,096 bytes; 26 where there is no space. */
tack_writing tack_call_write(uint64_t clock, const uint8_t *name, size_t name_length,
                             bool extension_came, const uint8_t *extension, size_t extension_length,
                             const uint8_t *spki_sha256, size_t spki_sha256_length,
                             bool handshake_finished, bool key_is_point, bool signature_correct,
                             uint8_t breaks_correct, uint8_t *out, size_t out_length);

#ifdef __cplusplus
}
#endif

#endif
