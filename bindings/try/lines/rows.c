/* What the archive of lines does with some rows: what is refused, slices that are too short, an output in pieces, ends of lines. The sizes of structs
   are checked by gelvanh_line.h itself. It prints each row that differs, and ends with 1 then. */
#include "gelvanh_line.h"
#include <stdio.h>
#include <string.h>

static int failed;

#define CHECK(row) ((row) ? (void)0 : (void)(failed = 1, fprintf(stderr, "lines/rows.c:%d: %s\n", __LINE__, #row)))

static const uint8_t *bytes(const char *text) {
    return (const uint8_t *)text;
}

static struct gelvanh_line made(void) {
    static const struct gelvanh_line_limits limits = GELVANH_LINE_LIMITS;
    struct gelvanh_line line;
    line.at = NULL;
    CHECK(gelvanh_line_new(&line, &limits) == GELVANH_LINE_GOES_ON && line.at != NULL);
    CHECK(gelvanh_line_begin(&line, bytes("> "), 2, 20, 5) == GELVANH_LINE_GOES_ON);
    return line;
}

static struct gelvanh_event key(unsigned code, uint32_t value, unsigned modifiers) {
    struct gelvanh_event event;
    memset(&event, 0, sizeof event);
    event.kind = GELVANH_KEY;
    event.code = (uint16_t)code;
    event.value = value;
    event.modifiers = (uint8_t)modifiers;
    return event;
}

static uint32_t type(struct gelvanh_line *line, unsigned code, uint32_t value, unsigned modifiers) {
    struct gelvanh_event event = key(code, value, modifiers);
    return gelvanh_line_event(line, &event);
}

/* Whether the line has this text, with this many bytes before the cursor; and a slice that is a byte shorter is unchanged. */
static int has(struct gelvanh_line *line, const char *text, size_t before) {
    uint8_t slice[128], kept[128];
    size_t length = strlen(text);
    memset(slice, '#', sizeof slice);
    memcpy(kept, slice, sizeof slice);
    if (length > 0 && (gelvanh_line_text(line, slice, length - 1) != length || memcmp(slice, kept, sizeof slice)))
        return 0;
    return gelvanh_line_text(line, slice, length) == length && !memcmp(slice, text, length) && slice[length] == '#' &&
           gelvanh_line_cursor(line) == before;
}

/* Whether all that is left of the output is this. */
static int writes(struct gelvanh_line *line, const char *text) {
    uint8_t slice[512];
    size_t length = gelvanh_line_output(line, slice, sizeof slice);
    return length == strlen(text) && !memcmp(slice, text, length) && gelvanh_line_output(line, slice, sizeof slice) == 0;
}

static void texts(void) {
    struct gelvanh_line line = made();
    CHECK(has(&line, "", 0));
    CHECK(type(&line, GELVANH_CHAR, 'a', 0) == GELVANH_LINE_GOES_ON && has(&line, "a", 1));
    CHECK(gelvanh_line_paste(&line, bytes("\303\234\tb\n"), 5) == GELVANH_LINE_GOES_ON && has(&line, "a\303\234 b", 5));
    CHECK(gelvanh_line_paste(&line, NULL, 0) == GELVANH_LINE_GOES_ON && has(&line, "a\303\234 b", 5));
    CHECK(type(&line, GELVANH_LEFT, 0, GELVANH_CONTROL) == GELVANH_LINE_GOES_ON && has(&line, "a\303\234 b", 4));
    CHECK(type(&line, GELVANH_CHAR, 'k', GELVANH_CONTROL) == GELVANH_LINE_GOES_ON && has(&line, "a\303\234 ", 4));
    CHECK(type(&line, GELVANH_CHAR, '_', GELVANH_CONTROL) == GELVANH_LINE_GOES_ON && has(&line, "a\303\234 b", 4));
    gelvanh_line_free(line);
}

static void ends(void) {
    struct gelvanh_line line = made(), other = made();
    uint8_t slice[64];
    size_t length = 99;
    CHECK(gelvanh_line_accepted(&line, slice, sizeof slice) == 0);
    CHECK(gelvanh_line_load_history(&line, bytes("one\n\ntwo"), 8) == GELVANH_LINE_GOES_ON);
    CHECK(gelvanh_line_paste(&line, bytes("three"), 5) == GELVANH_LINE_GOES_ON);
    CHECK(type(&line, GELVANH_ENTER, 0, 0) == GELVANH_LINE_ACCEPTED && has(&line, "", 0) && writes(&line, "\r\n"));
    CHECK(gelvanh_line_accepted(&line, slice, 4) == 5);
    CHECK(gelvanh_line_accepted(&line, slice, sizeof slice) == 5 && !memcmp(slice, "three", 5));
    memset(slice, '#', sizeof slice);
    CHECK(gelvanh_line_history(&line, slice, 13, &length) == GELVANH_LINE_GOES_ON && length == 14 && slice[0] == '#');
    CHECK(gelvanh_line_history(&line, slice, 14, &length) == GELVANH_LINE_GOES_ON && length == 14 && !memcmp(slice, "one\ntwo\nthree\n#", 15));
    CHECK(type(&line, GELVANH_UP, 0, 0) == GELVANH_LINE_GOES_ON && has(&line, "three", 5));
    CHECK(type(&line, GELVANH_CHAR, 'c', GELVANH_CONTROL) == GELVANH_LINE_INTERRUPTED && has(&line, "", 0) && writes(&line, "\r\n"));
    CHECK(type(&line, GELVANH_CHAR, 'd', GELVANH_CONTROL) == GELVANH_LINE_CLOSED && writes(&line, "\r\n"));
    CHECK(gelvanh_line_accepted(&line, slice, sizeof slice) == 5 && !memcmp(slice, "three", 5));
    /* The other line has a history of its own. */
    CHECK(type(&other, GELVANH_UP, 0, 0) == GELVANH_LINE_GOES_ON && has(&other, "", 0));
    gelvanh_line_free(other);
    gelvanh_line_free(line);
}

static void refused(void) {
    static const struct gelvanh_line_limits short_one = {3, 2, 2, 2, 0, 0};
    static const struct gelvanh_style plain = {{0, 0, 0, 0}, {0, 0, 0, 0}, {0, 0, 0, 0}, 0};
    static const struct gelvanh_style no_color = {{0, 0, 0, 0}, {20, 0, 0, 0}, {0, 0, 0, 0}, 0};
    static const struct gelvanh_style no_attribute = {{0, 0, 0, 0}, {0, 0, 0, 0}, {0, 0, 0, 0}, 1};
    struct gelvanh_event none[9];
    struct gelvanh_line line = made(), small;
    size_t at;
    for (at = 0; at < 9; at++)
        none[at] = key(GELVANH_CHAR, 'a', 0);
    none[0].kind = 0;
    none[1].kind = 10;
    none[2].code = 27;
    none[3].code = GELVANH_F;
    none[3].value = 256;
    none[4].value = 0xD800;
    none[5].value = 0x110000;
    none[6].press = 3;
    none[7].code = GELVANH_MEDIA;
    none[7].value = 13;
    none[8].kind = GELVANH_PASTE;
    CHECK(gelvanh_line_paste(&line, bytes("ab"), 2) == GELVANH_LINE_GOES_ON);
    for (at = 0; at < 9; at++)
        CHECK(gelvanh_line_event(&line, &none[at]) == GELVANH_LINE_UNKNOWN);
    CHECK(gelvanh_line_paste(&line, bytes("c\377"), 2) == GELVANH_LINE_UNKNOWN);
    CHECK(gelvanh_line_load_history(&line, bytes("c\377"), 2) == GELVANH_LINE_UNKNOWN);
    CHECK(gelvanh_line_hint(&line, bytes("c\377"), 2) == GELVANH_LINE_UNKNOWN);
    CHECK(gelvanh_line_begin(&line, bytes("c\377"), 2, 80, 24) == GELVANH_LINE_UNKNOWN);
    CHECK(gelvanh_line_begin(&line, bytes("c\033"), 2, 80, 24) == GELVANH_LINE_UNKNOWN);
    CHECK(gelvanh_line_prompt(&line, bytes("c\377"), 2, &plain) == GELVANH_LINE_UNKNOWN);
    CHECK(gelvanh_line_prompt(&line, bytes("c\033"), 2, &plain) == GELVANH_LINE_UNKNOWN);
    CHECK(gelvanh_line_prompt(&line, bytes("c"), 1, &no_color) == GELVANH_LINE_UNKNOWN);
    CHECK(gelvanh_line_prompt(&line, bytes("c"), 1, &no_attribute) == GELVANH_LINE_UNKNOWN);
    CHECK(gelvanh_line_complete(&line, bytes("c\377"), 2) == GELVANH_LINE_UNKNOWN);
    CHECK(gelvanh_line_list(&line, bytes("c\377"), 2) == GELVANH_LINE_UNKNOWN);
    CHECK(gelvanh_line_hide(&line, 3) == GELVANH_LINE_UNKNOWN);
    CHECK(has(&line, "ab", 2) && writes(&line, ""));
    gelvanh_line_free(line);
    CHECK(gelvanh_line_new(&small, &short_one) == GELVANH_LINE_GOES_ON);
    CHECK(gelvanh_line_paste(&small, bytes("abcd"), 4) == GELVANH_LINE_TOO_LONG && has(&small, "", 0));
    CHECK(gelvanh_line_paste(&small, bytes("ab"), 2) == GELVANH_LINE_GOES_ON);
    CHECK(gelvanh_line_complete(&small, bytes("abcd"), 4) == GELVANH_LINE_TOO_LONG && has(&small, "ab", 2));
    CHECK(gelvanh_line_complete(&small, bytes("abc"), 3) == GELVANH_LINE_GOES_ON && has(&small, "abc", 3));
    CHECK(type(&small, GELVANH_CHAR, 'd', 0) == GELVANH_LINE_TOO_LONG && has(&small, "abc", 3));
    gelvanh_line_free(small);
}

/* Events that aren't a line's do nothing. */
static void passed_over(void) {
    static const unsigned kinds[] = {
        GELVANH_FOCUS_GAINED, GELVANH_FOCUS_LOST, GELVANH_MOUSE, GELVANH_CURSOR, GELVANH_FLAGS, GELVANH_ATTRIBUTES, GELVANH_RESIZE,
    };
    struct gelvanh_line line = made();
    struct gelvanh_event event;
    size_t at;
    for (at = 0; at < sizeof kinds / sizeof *kinds; at++) {
        memset(&event, 0, sizeof event);
        event.kind = (uint16_t)kinds[at];
        CHECK(gelvanh_line_event(&line, &event) == GELVANH_LINE_GOES_ON && has(&line, "", 0));
    }
    event = key(GELVANH_CHAR, 'a', 0);
    event.press = GELVANH_RELEASE;
    CHECK(gelvanh_line_event(&line, &event) == GELVANH_LINE_GOES_ON && has(&line, "", 0));
    CHECK(writes(&line, ""));
    gelvanh_line_free(line);
}

/* The frames of a row: a byte at a time, and with a hint that is erased before the row is left. */
static void frames(void) {
    struct gelvanh_line line = made(), other = made();
    uint8_t slice[512], byte[1];
    size_t length, at;
    CHECK(gelvanh_line_paste(&line, bytes("he"), 2) == GELVANH_LINE_GOES_ON && gelvanh_line_paste(&other, bytes("he"), 2) == GELVANH_LINE_GOES_ON);
    CHECK(gelvanh_line_hint(&line, bytes("llo"), 3) == GELVANH_LINE_GOES_ON && gelvanh_line_hint(&other, bytes("llo"), 3) == GELVANH_LINE_GOES_ON);
    CHECK(gelvanh_line_output(&line, slice, sizeof slice) == 0);
    CHECK(gelvanh_line_show(&line) == GELVANH_LINE_GOES_ON && gelvanh_line_show(&other) == GELVANH_LINE_GOES_ON);
    CHECK(gelvanh_line_output(&line, slice, 0) == 0);
    length = gelvanh_line_output(&line, slice, sizeof slice);
    slice[length < sizeof slice ? length : 0] = 0;
    CHECK(strstr((const char *)slice, "he") != NULL && strstr((const char *)slice, "\033[2mllo") != NULL);
    for (at = 0; at < length; at++)
        CHECK(gelvanh_line_output(&other, byte, 1) == 1 && byte[0] == slice[at]);
    CHECK(gelvanh_line_output(&other, byte, 1) == 0);
    CHECK(type(&line, GELVANH_ENTER, 0, 0) == GELVANH_LINE_ACCEPTED && writes(&line, "\033[K\r\n"));
    /* 0 columns are 80; with one nothing has room. */
    CHECK(gelvanh_line_begin(&line, bytes("> "), 2, 0, 0) == GELVANH_LINE_GOES_ON && gelvanh_line_hint(&line, NULL, 0) == GELVANH_LINE_GOES_ON);
    CHECK(gelvanh_line_show(&line) == GELVANH_LINE_GOES_ON);
    length = gelvanh_line_output(&line, slice, sizeof slice);
    CHECK(gelvanh_line_begin(&line, bytes("> "), 2, 80, 24) == GELVANH_LINE_GOES_ON && gelvanh_line_show(&line) == GELVANH_LINE_GOES_ON);
    slice[length < sizeof slice ? length : 0] = 0;
    CHECK(length > 10 && writes(&line, (const char *)slice));
    CHECK(gelvanh_line_begin(&line, bytes("> "), 2, 1, 1) == GELVANH_LINE_GOES_ON);
    CHECK(gelvanh_line_show(&line) == GELVANH_LINE_GOES_ON && writes(&line, ""));
    gelvanh_line_free(other);
    gelvanh_line_free(line);
}

/* What the limits say of the history. */
static void limited(void) {
    static const char *const typed[] = {"one", " two", "one", "one", ""};
    static const char *const kept[] = {"one\n two\none\none\n", "one\n two\none\n", "one\none\none\n", "one\n"};
    size_t at, line_at, length;
    for (at = 0; at < 4; at++) {
        struct gelvanh_line_limits limits = GELVANH_LINE_LIMITS;
        struct gelvanh_line line;
        uint8_t slice[64];
        limits.ignore_dups = at & 1;
        limits.ignore_space = at >> 1;
        CHECK(gelvanh_line_new(&line, &limits) == GELVANH_LINE_GOES_ON);
        for (line_at = 0; line_at < 5; line_at++) {
            CHECK(gelvanh_line_paste(&line, bytes(typed[line_at]), strlen(typed[line_at])) == GELVANH_LINE_GOES_ON);
            CHECK(type(&line, GELVANH_ENTER, 0, 0) == GELVANH_LINE_ACCEPTED);
        }
        CHECK(gelvanh_line_history(&line, slice, sizeof slice, &length) == GELVANH_LINE_GOES_ON);
        CHECK(length == strlen(kept[at]) && !memcmp(slice, kept[at], length));
        gelvanh_line_free(line);
    }
}

/* Alt-Y turns to the kill before, of which as many are kept as the limits say. */
static void kills(void) {
    static const struct gelvanh_line_limits two = {100, 2, 9, 2, 0, 0};
    static const char *const after[] = {"c", "b", "c"};
    struct gelvanh_line line;
    size_t at;
    CHECK(gelvanh_line_new(&line, &two) == GELVANH_LINE_GOES_ON);
    for (at = 0; at < 3; at++) {
        CHECK(type(&line, GELVANH_CHAR, (uint32_t)('a' + at), 0) == GELVANH_LINE_GOES_ON);
        CHECK(type(&line, GELVANH_CHAR, 'u', GELVANH_CONTROL) == GELVANH_LINE_GOES_ON && has(&line, "", 0));
        CHECK(type(&line, GELVANH_LEFT, 0, 0) == GELVANH_LINE_GOES_ON);
    }
    for (at = 0; at < 3; at++)
        CHECK(type(&line, GELVANH_CHAR, 'y', at == 0 ? GELVANH_CONTROL : GELVANH_ALT) == GELVANH_LINE_GOES_ON && has(&line, after[at], 1));
    gelvanh_line_free(line);
}

/* Ctrl-L clears the window with the next frame, once. */
static void clears(void) {
    struct gelvanh_line line = made();
    uint8_t slice[512];
    size_t length, at;
    CHECK(gelvanh_line_paste(&line, bytes("he"), 2) == GELVANH_LINE_GOES_ON && gelvanh_line_show(&line) == GELVANH_LINE_GOES_ON);
    CHECK(gelvanh_line_output(&line, slice, sizeof slice) > 0);
    CHECK(type(&line, GELVANH_CHAR, 'l', GELVANH_CONTROL) == GELVANH_LINE_GOES_ON && has(&line, "he", 2) && writes(&line, ""));
    for (at = 0; at < 2; at++) {
        CHECK(gelvanh_line_show(&line) == GELVANH_LINE_GOES_ON);
        length = gelvanh_line_output(&line, slice, sizeof slice - 1);
        slice[length] = 0;
        CHECK((strstr((const char *)slice, "\033[2J\033[1;1H") == (const char *)slice) == (at == 0));
        CHECK((strstr((const char *)slice, "he") != NULL) == (at == 0));
    }
    gelvanh_line_free(line);
}

/* Limits of nothing, and of all. */
static void extremes(void) {
    static const struct gelvanh_line_limits none = {0, 0, 0, 0, 0, 0}, all = {(size_t)-1, (size_t)-1, (size_t)-1, (size_t)-1, 1, 1};
    struct gelvanh_line line;
    uint8_t slice[64];
    size_t length = 99;
    CHECK(gelvanh_line_new(&line, &none) == GELVANH_LINE_GOES_ON);
    CHECK(type(&line, GELVANH_CHAR, 'a', 0) == GELVANH_LINE_TOO_LONG && gelvanh_line_paste(&line, NULL, 0) == GELVANH_LINE_GOES_ON);
    CHECK(gelvanh_line_load_history(&line, bytes("a\n"), 2) == GELVANH_LINE_GOES_ON && type(&line, GELVANH_UP, 0, 0) == GELVANH_LINE_GOES_ON);
    CHECK(has(&line, "", 0) && type(&line, GELVANH_ENTER, 0, 0) == GELVANH_LINE_ACCEPTED);
    CHECK(gelvanh_line_history(&line, slice, sizeof slice, &length) == GELVANH_LINE_GOES_ON && length == 0);
    gelvanh_line_free(line);
    CHECK(gelvanh_line_new(&line, &all) == GELVANH_LINE_GOES_ON);
    CHECK(type(&line, GELVANH_CHAR, 'a', 0) == GELVANH_LINE_GOES_ON && type(&line, GELVANH_CHAR, 'w', GELVANH_CONTROL) == GELVANH_LINE_GOES_ON);
    CHECK(type(&line, GELVANH_CHAR, 'y', GELVANH_CONTROL) == GELVANH_LINE_GOES_ON && has(&line, "a", 1));
    CHECK(type(&line, GELVANH_ENTER, 0, 0) == GELVANH_LINE_ACCEPTED && type(&line, GELVANH_UP, 0, 0) == GELVANH_LINE_GOES_ON && has(&line, "a", 1));
    gelvanh_line_free(line);
}

/* An incremental search shows what it looks for, and is given up. */
static void searches(void) {
    struct gelvanh_line line = made();
    uint8_t slice[512];
    size_t length;
    CHECK(gelvanh_line_begin(&line, bytes("> "), 2, 80, 24) == GELVANH_LINE_GOES_ON);
    CHECK(gelvanh_line_load_history(&line, bytes("one\ntwo\n"), 8) == GELVANH_LINE_GOES_ON);
    CHECK(type(&line, GELVANH_CHAR, 'r', GELVANH_CONTROL) == GELVANH_LINE_GOES_ON && type(&line, GELVANH_CHAR, 'n', 0) == GELVANH_LINE_GOES_ON);
    CHECK(has(&line, "one", gelvanh_line_cursor(&line)) && gelvanh_line_show(&line) == GELVANH_LINE_GOES_ON);
    length = gelvanh_line_output(&line, slice, sizeof slice - 1);
    slice[length] = 0;
    CHECK(strstr((const char *)slice, "(reverse-i-search)`n':") != NULL && strstr((const char *)slice, "one") != NULL);
    CHECK(type(&line, GELVANH_CHAR, 'q', 0) == GELVANH_LINE_RINGS && has(&line, "one", gelvanh_line_cursor(&line)));
    CHECK(type(&line, GELVANH_CHAR, 'g', GELVANH_CONTROL) == GELVANH_LINE_GOES_ON && has(&line, "", 0));
    CHECK(type(&line, GELVANH_CHAR, 'g', GELVANH_CONTROL) == GELVANH_LINE_RINGS && has(&line, "", 0) && writes(&line, ""));
    gelvanh_line_free(line);
}

/* What a frame shows, behind what it had to write before: from the first letter of a text on. */
static int shows(struct gelvanh_line *line, const char *text) {
    static uint8_t slice[1024];
    size_t length;
    if (gelvanh_line_show(line) != GELVANH_LINE_GOES_ON)
        return 0;
    length = gelvanh_line_output(line, slice, sizeof slice - 1);
    slice[length] = 0;
    return strstr((const char *)slice, text) != NULL;
}

/* A line of three rows, and one that is hidden; a window of another size; words that are completed and listed. */
static void prompts(void) {
    struct gelvanh_line line = made();
    CHECK(gelvanh_line_begin(&line, bytes("> "), 2, 5, 9) == GELVANH_LINE_GOES_ON && gelvanh_line_paste(&line, bytes("123456"), 6) == GELVANH_LINE_GOES_ON);
    CHECK(shows(&line, "> 12\033[1G\033[1B3456\033[1G\033[1B"));
    /* A line that ends leaves its three rows, and one that ends without a frame leaves one. */
    CHECK(type(&line, GELVANH_LEFT, 0, 0) == GELVANH_LINE_GOES_ON && shows(&line, "\033[1A"));
    CHECK(type(&line, GELVANH_ENTER, 0, 0) == GELVANH_LINE_ACCEPTED && writes(&line, "\r\n"));
    CHECK(type(&line, GELVANH_ENTER, 0, 0) == GELVANH_LINE_ACCEPTED && writes(&line, "\r\n"));
    CHECK(gelvanh_line_paste(&line, bytes("123456"), 6) == GELVANH_LINE_GOES_ON && shows(&line, "> 12"));
    CHECK(gelvanh_line_resize(&line, 20, 9) == GELVANH_LINE_GOES_ON && writes(&line, "\033[2A\033[1G\033[J") && shows(&line, "> 123456"));
    CHECK(gelvanh_line_hide(&line, GELVANH_LINE_STARS) == GELVANH_LINE_GOES_ON && shows(&line, "******"));
    CHECK(gelvanh_line_hide(&line, GELVANH_LINE_NOTHING) == GELVANH_LINE_GOES_ON && shows(&line, "      ") && has(&line, "123456", 6));
    CHECK(gelvanh_line_hide(&line, GELVANH_LINE_SHOWN) == GELVANH_LINE_GOES_ON && shows(&line, "123456"));
    CHECK(type(&line, GELVANH_ENTER, 0, 0) == GELVANH_LINE_ACCEPTED && writes(&line, "\r\n"));
    CHECK(gelvanh_line_paste(&line, bytes("say h"), 5) == GELVANH_LINE_GOES_ON && shows(&line, "say h"));
    CHECK(gelvanh_line_complete(&line, bytes("hello\nhelp\nquit"), 15) == GELVANH_LINE_GOES_ON && has(&line, "say hel", 7) && shows(&line, "el"));
    CHECK(gelvanh_line_complete(&line, bytes("hello\nhelp\nquit"), 15) == GELVANH_LINE_GOES_ON && has(&line, "say hel", 7) && shows(&line, "hello  help"));
    CHECK(type(&line, GELVANH_LEFT, 0, 0) == GELVANH_LINE_GOES_ON && shows(&line, "     ") && gelvanh_line_list(&line, bytes("one\ntwo"), 7) == GELVANH_LINE_GOES_ON);
    CHECK(shows(&line, "one  two") && type(&line, GELVANH_ENTER, 0, 0) == GELVANH_LINE_ACCEPTED && writes(&line, "\r\n\033[J"));
    gelvanh_line_free(line);
}

/* A prompt of parts in styles, up to the next one. */
static void styled(void) {
    static const struct gelvanh_style green = {{GELVANH_GREEN, 0, 0, 0}, {0, 0, 0, 0}, {0, 0, 0, 0}, 0};
    static const struct gelvanh_style bold = {{0, 0, 0, 0}, {0, 0, 0, 0}, {0, 0, 0, 0}, 4};
    struct gelvanh_line line = made();
    CHECK(gelvanh_line_begin(&line, NULL, 0, 20, 9) == GELVANH_LINE_GOES_ON && gelvanh_line_prompt(&line, bytes("~"), 1, &green) == GELVANH_LINE_GOES_ON);
    CHECK(gelvanh_line_prompt(&line, bytes("> "), 2, &bold) == GELVANH_LINE_GOES_ON && gelvanh_line_paste(&line, bytes("a"), 1) == GELVANH_LINE_GOES_ON);
    CHECK(shows(&line, "\033[38;5;10m~\033[0m\033[1m> \033[0ma"));
    CHECK(gelvanh_line_begin(&line, bytes("> "), 2, 20, 9) == GELVANH_LINE_GOES_ON && shows(&line, "> a"));
    gelvanh_line_free(line);
}

int main(void) {
    prompts();
    styled();
    searches();
    extremes();
    limited();
    kills();
    clears();
    texts();
    ends();
    refused();
    passed_over();
    frames();
    return failed;
}
