/* Random states and pieces, each in a heap block of its own size: for valgrind. */
#include "gelvanh.h"
#include <stdio.h>
#include <stdlib.h>
#include <string.h>

static uint64_t seed = 1;

static uint32_t draw(uint32_t below) {
    seed ^= seed << 13;
    seed ^= seed >> 7;
    seed ^= seed << 17;
    return (uint32_t)(seed >> 32) % below;
}

static const uint8_t likely[] = "\x1b\x1b[[[<?;;::0123456789MmuAZ~OcRIO200~201~\xc3\xbc\xf0\x9f\x98\x80 az";

static void fill(uint8_t *bytes, size_t length, bool wild) {
    for (size_t i = 0; i < length; i++)
        bytes[i] = wild ? (uint8_t)draw(256) : likely[draw(sizeof likely - 1)];
}

static void fail(const char *what) {
    fprintf(stderr, "%s\n", what);
    exit(1);
}

/* Random calls of a reader beside a list that a loop shifts. */
static void hold_and_take(void) {
    size_t room = draw(6), count = 0;
    struct gelvanh_held *table = room ? malloc(room * sizeof *table) : NULL;
    struct gelvanh_held kept[6], taken;
    struct gelvanh_reader reader = {draw(2) ? 0 : draw(9), 0, 0};
    for (int i = 0; i < 40; i++) {
        uint32_t classes = draw(16);
        if (draw(2)) {
            struct gelvanh_event event = {(uint16_t)(1 + draw(9)), 0, 0, 0, 0, 0, 0, 0, 0};
            uint64_t number = reader.arrivals;
            if (gelvanh_hold(&reader, table, room, &event) != (count < room))
                fail("room of gelvanh_hold");
            if (count < room) {
                kept[count].event = event;
                kept[count++].arrival = number;
            }
            continue;
        }
        size_t at = 0;
        while (at < count && !(classes & (kept[at].event.kind == 6 ? 2u : kept[at].event.kind == 7 ? 4u : kept[at].event.kind == 8 ? 8u : 1u)))
            at++;
        if (gelvanh_holds(&reader, table, room, classes) != (at < count) || gelvanh_take(&reader, table, room, classes, &taken) != (at < count))
            fail("whether gelvanh_take takes");
        if (at < count) {
            if (taken.event.kind != kept[at].event.kind || taken.arrival != kept[at].arrival)
                fail("what gelvanh_take takes");
            memmove(kept + at, kept + at + 1, (--count - at) * sizeof *kept);
        }
    }
    free(table);
}

static void same_held(const struct gelvanh_reader *reader, const struct gelvanh_held *table, const struct gelvanh_reader *other,
                      const struct gelvanh_held *others) {
    if (reader->held != other->held || reader->arrivals != other->arrivals)
        fail("how many are held");
    if (reader->held && memcmp(table + reader->first, others + other->first, reader->held * sizeof *table))
        fail("what is held");
}

/* A reader whose events come and go by gelvanh_feed_held and gelvanh_take_some, beside one of the single calls. */
static void many_and_single(void) {
    size_t room = draw(9), count, n;
    struct gelvanh_held *table = room ? malloc(room * sizeof *table) : NULL, *others = room ? malloc(room * sizeof *others) : NULL;
    struct gelvanh_held some[5], taken;
    struct gelvanh_event events[9];
    struct gelvanh_state state, other_state;
    struct gelvanh_reader reader = {0, 0, draw(2) ? 0 : UINT64_MAX - 2}, other = reader;
    memset(&state, 0, sizeof state);
    memset(&other_state, 0, sizeof other_state);
    for (int i = 0; i < 16; i++) {
        if (draw(2)) {
            size_t length = draw(2) ? draw(2) : draw(24);
            bool more = draw(2), raw = draw(2);
            uint8_t *piece = length ? malloc(length) : NULL;
            fill(piece, length, draw(4) == 0);
            size_t fed = gelvanh_feed_held(&state, piece, length, more, raw, &reader, table, room, &count);
            if (fed != gelvanh_feed(&other_state, piece, length, more, raw, events, room - other.held, &n) || count != n)
                fail("how much gelvanh_feed_held takes");
            for (size_t at = 0; at < n; at++)
                gelvanh_hold(&other, others, room, &events[at]);
            if (gelvanh_is_undecided(&state) != gelvanh_is_undecided(&other_state) || gelvanh_is_pasting(&state) != gelvanh_is_pasting(&other_state))
                fail("the state of gelvanh_feed_held");
            free(piece);
        } else {
            uint32_t classes = draw(2) ? 1 : draw(16);
            size_t most = draw(5);
            memset(some, 0xEE, sizeof some);
            count = gelvanh_take_some(&reader, table, room, classes, some, most);
            for (n = 0; n < most && gelvanh_take(&other, others, room, classes, &taken); n++)
                if (n < count && memcmp(&some[n], &taken, sizeof taken))
                    fail("what gelvanh_take_some takes");
            if (count != n || ((uint8_t *)(some + count))[0] != 0xEE)
                fail("how many gelvanh_take_some takes");
        }
        same_held(&reader, table, &other, others);
    }
    free(others);
    free(table);
}

static void one(bool wild) {
    struct gelvanh_state *state = calloc(1, sizeof *state);
    if (wild)
        fill((uint8_t *)state, sizeof *state, true);
    size_t length = draw(40), room = draw(9), out = draw(50);
    uint8_t *piece = length ? malloc(length) : NULL;
    struct gelvanh_event *events = room ? malloc(room * sizeof *events) : NULL;
    uint8_t *slice = out ? malloc(out) : NULL;
    fill(piece, length, draw(2));
    size_t count = 99, written = 99;
    size_t taken = gelvanh_feed(state, piece, length, draw(2), draw(2), events, room, &count);
    if (taken > length || count > room || (length > 0 && room > 0 && taken == 0))
        fail("bounds of gelvanh_feed");
    for (size_t i = 0; i < count; i++)
        if (events[i].kind < 1 || events[i].kind > 8)
            fail("kind of an event");
    gelvanh_is_undecided(state);
    gelvanh_is_pasting(state);
    size_t read = gelvanh_paste_text(piece, length, slice, out, &written);
    if (read > length || written > out || (read < length && written + 4 <= out))
        fail("bounds of gelvanh_paste_text");
    struct gelvanh_command command;
    fill((uint8_t *)&command, sizeof command, true);
    command.kind = draw(50);
    command.first = (uint16_t)draw(40);
    command.foreground.kind = (uint8_t)draw(22);
    command.background.kind = (uint8_t)draw(22);
    command.underline.kind = (uint8_t)draw(22);
    command.attributes &= draw(2) ? 0x1FFFFFFE : 0xFFFFFFFF;
    size_t needed = 0;
    uint32_t outcome = gelvanh_write_command(&command, draw(2), slice, out, &needed);
    if (outcome > 2 || (outcome == 0 && needed > out) || (outcome == 1 && needed <= out))
        fail("outcome of gelvanh_command");
    outcome = gelvanh_print_styled(&command, piece, length, draw(2), slice, out, &needed);
    if (outcome > 2)
        fail("outcome of gelvanh_print_styled");
    gelvanh_copy_to_clipboard(piece, length, piece, length / 2, slice, out, &needed);
    gelvanh_set_title(piece, length, slice, out, &needed);
    gelvanh_print(piece, length, slice, out, &needed);
    hold_and_take();
    many_and_single();
    free(slice);
    free(events);
    free(piece);
    free(state);
}

/* The archive is the header's. */
static void check_version(void) {
    if (gelvanh_version() != GELVANH_VERSION_NUMBER)
        fail("gelvanh_version");
}

int main(int argc, char **argv) {
    int n = argc > 1 ? atoi(argv[1]) : 20000;
    check_version();
    for (int i = 0; i < n; i++)
        one(i % 2);
    printf("%d states and pieces\n", n);
    return 0;
}
