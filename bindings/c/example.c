/* Reads an extension of each edition through the C interface, and malformed ones; records a call; judges a disabled server of
 * edition one, and a server of edition two that moves from one key to another through two tacks. */
#include "tack.h"
#include <stdio.h>
#include <string.h>

static void extension_of_edition_one(void) {
    const uint8_t smallest[] = {0, 0, 0, 0};
    const uint8_t malformed[] = {0, 0, 0, 2};
    const tack_reading good = tack_extension_read(smallest, sizeof smallest);
    const tack_reading bad = tack_extension_read(malformed, sizeof malformed);
    const tack_reading none = tack_extension_read(NULL, 0);
    const tack_span tack = tack_extension_tack(smallest, sizeof smallest);
    const tack_span breaks = tack_extension_breaks(smallest, sizeof smallest);
    uint8_t out[4] = {1, 1, 1, 1};
    const tack_writing written = tack_extension_write(NULL, 0, NULL, 0, 0, out, sizeof out);
    const tack_writing signed_bytes = tack_signed_bytes(NULL, 0, out, sizeof out);

    printf("%d %d %d\n", good.number, good.alert, good.activation);
    printf("%d %d %d\n", bad.number, bad.alert, bad.activation);
    printf("%d %d %d\n", none.number, none.alert, none.activation);
    printf("%zu %zu %zu %zu\n", tack.start, tack.length, breaks.start, breaks.length);
    printf("%d %d %zu %d%d%d%d\n", written.number, written.alert, written.written, out[0], out[1], out[2], out[3]);
    printf("%d %d %zu\n", signed_bytes.number, signed_bytes.alert, signed_bytes.written);
}

static void recorded_call(void) {
    const uint8_t name[] = {'a', '.', 'b'};
    const uint8_t in_capitals[] = {'A', '.', 'B'};
    const uint8_t hash[32] = {0};
    uint8_t call[TACK_LONGEST_CALL];
    const tack_writing recorded = tack_call_write(1000, name, sizeof name, false, NULL, 0, hash, sizeof hash,
                                                  true, true, true, 0, call, sizeof call);

    printf("%d %d\n", tack_name_well_formed(name, sizeof name), tack_name_well_formed(in_capitals, sizeof in_capitals));
    printf("%d %d %zu\n", recorded.number, recorded.alert, recorded.written);
}

/* A tack of one key, which is one byte 64 times: generation 3, no expiration, the hash all zero. */
static void put_tack(uint8_t *tack, uint8_t key) {
    memset(tack, 0, 166);
    memset(tack, key, 64);
    memset(tack + 64, 3, 2);
    memset(tack + 66, 0xff, 4);
}

/* A server that shows its tack disabled gets no pin, but where the caller asks for it. */
static void disabled_server(bool learn_disabled) {
    static uint8_t table[TACK_TABLE_LENGTH];
    const uint8_t name[] = {'a', '.', 'b'};
    const uint8_t hash[32] = {0};
    uint8_t tack[166], extension[170];
    tack_judgement judged;
    tack_inspection inspected;

    put_tack(tack, 0x11);
    tack_extension_write(tack, sizeof tack, NULL, 0, 0, extension, sizeof extension);
    tack_start(table, sizeof table, false);
    judged = tack_judge(table, sizeof table, 1000, name, sizeof name, true, extension, sizeof extension, hash, sizeof hash,
                        true, true, true, 0, learn_disabled);
    inspected = tack_inspect(table, sizeof table, name, sizeof name, 1000, false);
    printf("%d %d %d\n", judged.number, judged.alert, judged.no_room);
    printf("%d %u\n", inspected.number, inspected.initial);
}

/* One tack, disabled; with bit 1 of the flags, which is the second tack's, it is malformed. */
static void extension_of_edition_two(void) {
    uint8_t tack[166], extension[169];
    tack_writing written;
    tack_reading good, bad;
    tack_span first, second;

    put_tack(tack, 0x11);
    written = tack2_extension_write(tack, sizeof tack, 0, extension, sizeof extension);
    good = tack2_extension_read(extension, sizeof extension);
    first = tack2_extension_tack(extension, sizeof extension, false);
    second = tack2_extension_tack(extension, sizeof extension, true);
    extension[168] = 2;
    bad = tack2_extension_read(extension, sizeof extension);

    printf("%d %d %zu\n", written.number, written.alert, written.written);
    printf("%d %d %d\n", good.number, good.alert, good.activation);
    printf("%zu %zu %zu %zu\n", first.start, first.length, second.start, second.length);
    printf("%d %d %d\n", bad.number, bad.alert, bad.activation);
}

/* A finished connection to a.b that shows tacks of these keys. */
static void connect_two(uint8_t *table, uint64_t clock, const uint8_t *keys, size_t count, uint8_t flags) {
    const uint8_t name[] = {'a', '.', 'b'};
    const uint8_t hash[32] = {0};
    uint8_t tacks[332], extension[335];
    size_t i;
    tack_writing written;
    tack_judgement judged;

    for (i = 0; i < count; i++) {
        put_tack(tacks + 166 * i, keys[i]);
    }
    written = tack2_extension_write(tacks, 166 * count, flags, extension, sizeof extension);
    judged = tack2_judge(table, TACK_TABLE_LENGTH, clock, name, sizeof name, true, extension, written.written,
                         hash, sizeof hash, true, 3, 3);
    printf("%d %d %d\n", judged.number, judged.alert, judged.no_room);
}

static void inspect_both(const uint8_t *table, uint64_t clock) {
    const uint8_t name[] = {'a', '.', 'b'};
    const tack_inspection first = tack_inspect(table, TACK_TABLE_LENGTH, name, sizeof name, clock, false);
    const tack_inspection second = tack_inspect(table, TACK_TABLE_LENGTH, name, sizeof name, clock, true);

    printf("%d %u %u %ld\n", first.number, first.initial, first.end, (long)first.minutes_left);
    printf("%d %u %u %ld\n", second.number, second.initial, second.end, (long)second.minutes_left);
}

/* The new key's pin is made and activated beside the old one's, which then ends. */
static void move_to_another_key(void) {
    static uint8_t table[TACK_TABLE_LENGTH];
    const uint8_t keys[] = {0x11, 0x22}, twice[] = {0x22, 0x22};
    const tack_outcome started = tack_start(table, sizeof table, true);

    printf("%d %d %d\n", started.number, started.alert, table[4]);
    connect_two(table, 1000, keys, 1, 1);
    connect_two(table, 1600, keys, 1, 1);
    connect_two(table, 1700, keys, 2, 3);
    connect_two(table, 1900, keys, 2, 3);
    inspect_both(table, 1900);
    connect_two(table, 1900, keys + 1, 1, 1);
    connect_two(table, 1900, twice, 2, 3);
    connect_two(table, 2700, keys, 2, 2);
    connect_two(table, 2800, keys + 1, 1, 1);
    inspect_both(table, 2800);
}

/* A connection of edition one, judged by a table of edition two. */
static void other_edition(void) {
    static uint8_t table[TACK_TABLE_LENGTH];
    const uint8_t name[] = {'a', '.', 'b'};
    const uint8_t hash[32] = {0};
    tack_judgement judged;

    tack_start(table, sizeof table, true);
    judged = tack_judge(table, sizeof table, 1000, name, sizeof name, false, NULL, 0, hash, sizeof hash,
                        true, true, true, 0, false);
    printf("%d %d %d\n", judged.number, judged.alert, judged.no_room);
}

int main(void) {
    extension_of_edition_one();
    recorded_call();
    disabled_server(false);
    disabled_server(true);
    extension_of_edition_two();
    move_to_another_key();
    other_edition();
    return 0;
}
