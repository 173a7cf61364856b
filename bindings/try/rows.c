/* What the archive does with some rows: a full table, a paste cut at its ends, slices that are too short, held events by class. The sizes of
   structs are checked by gelvanh.h itself. It prints each row that differs, and ends with 1 then. */
#include "gelvanh.h"
#include <stdio.h>
#include <string.h>

static int failed;

#define CHECK(row) ((row) ? (void)0 : (void)(failed = 1, fprintf(stderr, "rows.c:%d: %s\n", __LINE__, #row)))

static const uint8_t *bytes(const char *text) {
    return (const uint8_t *)text;
}

static int is_key(const struct gelvanh_event *event, unsigned code, uint32_t value, unsigned modifiers) {
    return event->kind == GELVANH_KEY && event->code == code && event->value == value && event->modifiers == modifiers;
}

static void full_table(void) {
    struct gelvanh_state state;
    struct gelvanh_event events[2];
    size_t count;
    memset(&state, 0, sizeof state);
    /* a, U with dots, and all of Up but its last byte */
    CHECK(gelvanh_feed(&state, bytes("a\303\234\033[A\033"), 7, 0, 0, events, 2, &count) == 5 && count == 2);
    CHECK(is_key(&events[0], GELVANH_CHAR, 'a', 0) && is_key(&events[1], GELVANH_CHAR, 0xDC, GELVANH_SHIFT));
    CHECK(gelvanh_feed(&state, bytes("A\033"), 2, 0, 0, events, 2, &count) == 2 && count == 2);
    CHECK(is_key(&events[0], GELVANH_UP, 0, 0) && is_key(&events[1], GELVANH_ESC, 0, 0) && !gelvanh_is_undecided(&state));
    CHECK(gelvanh_feed(&state, bytes("\033[1;5"), 5, 1, 0, events, 2, &count) == 5 && count == 0 && gelvanh_is_undecided(&state));
    CHECK(gelvanh_feed(&state, bytes("D"), 1, 1, 0, events, 2, &count) == 1 && count == 1);
    CHECK(is_key(&events[0], GELVANH_LEFT, 0, GELVANH_CONTROL));
}

static void more_and_raw(void) {
    struct gelvanh_state state;
    struct gelvanh_event events[2];
    size_t count;
    memset(&state, 0, sizeof state);
    /* If more follows at once, ESC is no Esc key yet. */
    CHECK(gelvanh_feed(&state, bytes("\033"), 1, 1, 0, events, 2, &count) == 1 && count == 0 && gelvanh_is_undecided(&state));
    memset(&state, 0, sizeof state);
    /* A line feed is Ctrl-J in raw mode, and else Enter. */
    CHECK(gelvanh_feed(&state, bytes("\n"), 1, 0, 1, events, 2, &count) == 1 && count == 1);
    CHECK(is_key(&events[0], GELVANH_CHAR, 'j', GELVANH_CONTROL));
    CHECK(gelvanh_feed(&state, bytes("\n"), 1, 0, 0, events, 2, &count) == 1 && is_key(&events[0], GELVANH_ENTER, 0, 0));
}

static void paste(void) {
    const uint8_t *piece = bytes("x\033[200~a\377b\033[201~y");
    struct gelvanh_state state;
    struct gelvanh_event events[8];
    size_t count;
    memset(&state, 0, sizeof state);
    CHECK(gelvanh_feed(&state, piece, 17, 1, 0, events, 8, &count) == 7 && count == 1 && gelvanh_is_pasting(&state));
    CHECK(gelvanh_feed(&state, piece + 7, 10, 1, 0, events, 8, &count) == 9 && count == 1 && !gelvanh_is_pasting(&state));
    CHECK(events[0].kind == GELVANH_PASTE);
}

static void paste_text(void) {
    const uint8_t *text = bytes("ab\377\303\274c");
    uint8_t into[5], two[2];
    size_t written;
    CHECK(gelvanh_paste_text(text, 6, into, 5, &written) == 3 && written == 5 && !memcmp(into, "ab\357\277\275", 5));
    CHECK(gelvanh_paste_text(text + 3, 3, into, 5, &written) == 3 && written == 3 && !memcmp(into, "\303\274c", 3));
    /* The slice is filled to its end, and its last byte has no room for two. */
    CHECK(gelvanh_paste_text(bytes("abc"), 3, two, 2, &written) == 2 && written == 2 && !memcmp(two, "ab", 2));
    CHECK(gelvanh_paste_text(bytes("a\303\274b"), 4, two, 2, &written) == 1 && written == 1);
}

#ifdef __cplusplus
typedef gelvanh_command a_command; /* in C++ the struct's name is the struct */
#else
typedef struct gelvanh_command a_command;
#endif

static a_command command(uint32_t kind, uint16_t first, uint16_t second) {
    a_command made;
    memset(&made, 0, sizeof made);
    made.kind = kind;
    made.first = first;
    made.second = second;
    return made;
}

/* Whether a command is written as this text, and changes nothing if the slice is a byte shorter. */
static int writes(const struct gelvanh_command *it, const char *text) {
    uint8_t slice[256], before[256];
    size_t length, all = strlen(text);
    memset(slice, '#', sizeof slice);
    memcpy(before, slice, sizeof slice);
    if (gelvanh_write_command(it, 1, slice, all - 1, &length) != GELVANH_TOO_SMALL || length != all || memcmp(slice, before, sizeof slice))
        return 0;
    return gelvanh_write_command(it, 1, slice, all, &length) == GELVANH_WRITTEN && length == all && !memcmp(slice, text, all) && slice[all] == '#';
}

static void commands(void) {
    static const struct { uint32_t kind; uint16_t first, second; } none[] = {
        {GELVANH_SET_TITLE, 0, 0}, {GELVANH_PRINT + 1, 0, 0}, {GELVANH_SET_CURSOR_STYLE, 7, 0}, {GELVANH_SET_FOREGROUND_COLOR, 0, 0},
    };
    struct gelvanh_command it = command(GELVANH_MOVE_TO, 9, 1);
    uint8_t slice[256];
    size_t length, at;
    CHECK(writes(&it, "\033[2;10H"));
    it = command(GELVANH_ENABLE_MOUSE_CAPTURE, 0, 0);
    CHECK(writes(&it, "\033[?1000h\033[?1002h\033[?1003h\033[?1015h\033[?1006h"));
    for (at = 0; at < sizeof none / sizeof *none; at++) {
        it = command(none[at].kind, none[at].first, none[at].second);
        CHECK(gelvanh_command(&it, 1, slice, 8, &length) == GELVANH_NAMES_NOTHING && length == 0);
    }
    /* All attributes, of which a bit more is none. */
    it = command(GELVANH_SET_ATTRIBUTES, 0, 0);
    it.attributes = 0x1FFFFFFE;
    CHECK(gelvanh_write_command(&it, 1, slice, 256, &length) == GELVANH_WRITTEN && length == 134);
    CHECK(!memcmp(slice, "\033[0m\033[1m", 8) && !memcmp(slice + 129, "\033[55m", 5));
    it.attributes = 0x20000000;
    CHECK(gelvanh_write_command(&it, 1, slice, 256, &length) == GELVANH_NAMES_NOTHING);
}

static void texts(void) {
    struct gelvanh_command red = command(0, 0, 0);
    uint8_t slice[64];
    size_t length;
    CHECK(gelvanh_print(bytes("\303\244"), 2, slice, 64, &length) == GELVANH_WRITTEN && length == 2 && !memcmp(slice, "\303\244", 2));
    CHECK(gelvanh_print(bytes("\377"), 1, slice, 64, &length) == GELVANH_NAMES_NOTHING);
    CHECK(gelvanh_set_title(bytes("t"), 1, slice, 64, &length) == GELVANH_WRITTEN && length == 6 && !memcmp(slice, "\033]0;t\a", 6));
    red.foreground.kind = GELVANH_RED;
    CHECK(gelvanh_print_styled(&red, bytes("x"), 1, 1, slice, 64, &length) == GELVANH_WRITTEN && length == 15);
    CHECK(!memcmp(slice, "\033[38;5;9mx\033[39m", 15));
    CHECK(gelvanh_copy_to_clipboard(bytes("foo"), 3, bytes("c"), 1, slice, 64, &length) == GELVANH_WRITTEN && length == 13);
    CHECK(!memcmp(slice, "\033]52;c;Zm9v\033\\", 13));
}

static struct gelvanh_event event(unsigned kind, uint16_t column, uint32_t value) {
    struct gelvanh_event made;
    memset(&made, 0, sizeof made);
    made.kind = (uint16_t)kind;
    made.column = column;
    made.value = value;
    return made;
}

/* Whether the first held event of some classes is this one, with this number. */
static int takes(struct gelvanh_reader *reader, struct gelvanh_held *table, uint32_t classes, struct gelvanh_event want, uint64_t arrival) {
    struct gelvanh_held taken;
    return gelvanh_holds(reader, table, 4, classes) && gelvanh_take(reader, table, 4, classes, &taken)
        && !memcmp(&taken.event, &want, sizeof want) && taken.arrival == arrival;
}

static void held(void) {
    struct gelvanh_event all[4], resize = event(GELVANH_RESIZE, 80, 0);
    struct gelvanh_reader reader, wild, full;
    struct gelvanh_held table[4], taken;
    int at;
    all[0] = event(GELVANH_KEY, 0, 'a');
    all[1] = event(GELVANH_CURSOR, 7, 0);
    all[2] = event(GELVANH_KEY, 0, 'b');
    all[3] = event(GELVANH_ATTRIBUTES, 0, 0);
    memset(&reader, 0, sizeof reader);
    for (at = 0; at < 4; at++)
        CHECK(gelvanh_hold(&reader, table, 4, &all[at]));
    full = reader;
    CHECK(!gelvanh_hold(&reader, table, 4, &resize) && !memcmp(&reader, &full, sizeof full));
    CHECK(takes(&reader, table, GELVANH_FLAGS_REPLIES | GELVANH_ATTRIBUTES_REPLIES, all[3], 3));
    CHECK(takes(&reader, table, GELVANH_CURSOR_REPLIES, all[1], 1));
    CHECK(takes(&reader, table, GELVANH_EVENTS, all[0], 0));
    CHECK(takes(&reader, table, 15, all[2], 2));
    CHECK(!gelvanh_holds(&reader, table, 4, 15) && !gelvanh_take(&reader, table, 4, 15, &taken));
    /* What was taken left its place. */
    CHECK(gelvanh_hold(&reader, table, 4, &resize) && !gelvanh_holds(&reader, table, 4, 14) && takes(&reader, table, GELVANH_EVENTS, resize, 4));
    /* Any numbers are a reader, and the greatest number stays. */
    memset(&wild, 0xFF, sizeof wild);
    wild.first = 9;
    CHECK(!gelvanh_holds(&wild, table, 4, 15) && gelvanh_hold(&wild, table, 4, &resize) && wild.held == 1 && wild.arrivals + 1 == 0);
}

/* Many events in one call: as far as there is room, up to the ends of a paste, and those of some classes. */
static void many(void) {
    struct gelvanh_state state;
    struct gelvanh_reader reader, before;
    struct gelvanh_held table[4], taken[3];
    size_t count;
    memset(&state, 0, sizeof state);
    memset(&reader, 0, sizeof reader);
    CHECK(gelvanh_feed_held(&state, bytes("a\033[2;3Rb"), 8, 0, 1, &reader, table, 4, &count) == 8 && count == 3 && reader.held == 3);
    CHECK(gelvanh_feed_held(&state, bytes("cd"), 2, 0, 1, &reader, table, 4, &count) == 1 && count == 1 && reader.arrivals == 4);
    CHECK(gelvanh_feed_held(&state, bytes("d"), 1, 0, 1, &reader, table, 4, &count) == 0 && count == 0);
    CHECK(gelvanh_take_some(&reader, table, 4, GELVANH_EVENTS, taken, 2) == 2 && reader.held == 2);
    CHECK(is_key(&taken[0].event, GELVANH_CHAR, 'a', 0) && taken[0].arrival == 0);
    CHECK(is_key(&taken[1].event, GELVANH_CHAR, 'b', 0) && taken[1].arrival == 2);
    CHECK(gelvanh_feed_held(&state, bytes("d\033[200~"), 7, 1, 1, &reader, table, 4, &count) == 7 && count == 1);
    CHECK(gelvanh_feed_held(&state, bytes("x\033[201~y"), 8, 0, 1, &reader, table, 4, &count) == 7 && count == 1 && reader.arrivals == 6);
    /* The table is full: no byte of a paste is taken that would end it. */
    CHECK(reader.held == 4 && gelvanh_take_some(&reader, table, 4, GELVANH_FLAGS_REPLIES, taken, 3) == 0);
    CHECK(gelvanh_take_some(&reader, table, 4, 15, taken, 3) == 3 && taken[0].event.kind == GELVANH_CURSOR && taken[0].arrival == 1);
    CHECK(is_key(&taken[1].event, GELVANH_CHAR, 'c', 0) && is_key(&taken[2].event, GELVANH_CHAR, 'd', 0));
    CHECK(gelvanh_take_some(&reader, table, 4, GELVANH_EVENTS, taken, 3) == 1 && taken[0].event.kind == GELVANH_PASTE && taken[0].arrival == 5);
    before = reader;
    CHECK(gelvanh_take_some(&reader, table, 4, 15, taken, 3) == 0 && !memcmp(&reader, &before, sizeof before));
}

int main(void) {
    CHECK(gelvanh_version() == GELVANH_VERSION_NUMBER);
    full_table();
    more_and_raw();
    paste();
    paste_text();
    commands();
    texts();
    held();
    many();
    return failed;
}
