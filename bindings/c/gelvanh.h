/* Gelvanh's parser and commands, proved (crates/crossterm_c). No call needs memory or blocks, or fails in a way that isn't said here.
 *
 * What a caller owes: each pointer is valid for its length (with a length of 0 it may be NULL), a bool is 0 or 1, and what two arguments
 * point to doesn't overlap if one of them is written. Any numbers in a state are a state. */
#ifndef GELVANH_H
#define GELVANH_H

/* The version of this header and of the archive that it goes with.
 *
 * Before 1.0.0 the second number changes wherever a program has to be compiled again: a struct, a number or a call is another. From 1.0.0
 * on the first does. Otherwise numbers for new kinds, keys and commands may follow the last: a program passes over those it doesn't know. */
#define GELVANH_VERSION "0.4.1"
#define GELVANH_VERSION_MAJOR 0
#define GELVANH_VERSION_MINOR 4
#define GELVANH_VERSION_PATCH 1
#define GELVANH_VERSION_NUMBER ((GELVANH_VERSION_MAJOR * 256 + GELVANH_VERSION_MINOR) * 256 + GELVANH_VERSION_PATCH)

#include <stddef.h>
#include <stdint.h>

#ifdef __cplusplus
extern "C" {
typedef bool gelvanh_bool;
#elif defined(__STDC_VERSION__) && __STDC_VERSION__ >= 199901L
#include <stdbool.h>
typedef bool gelvanh_bool;
#else
typedef unsigned char gelvanh_bool; /* a byte of 0 or 1, as bool is since C99 */
#endif

struct gelvanh_number {
    uint32_t kind, value;
};

/* The parser's state, which the caller keeps. All zeros is a parser that has seen no bytes. */
struct gelvanh_state {
    uint8_t kind, part_one, part_two, place, last, validity, opening, escaped;
    uint8_t begun[4];
    struct gelvanh_number one, one_more, two, two_more, three;
};

enum gelvanh_event_kind {
    GELVANH_FOCUS_GAINED = 1,
    GELVANH_FOCUS_LOST = 2,
    GELVANH_KEY = 3,       /* code, value, modifiers, press, state */
    GELVANH_MOUSE = 4,     /* code, value, column, row, modifiers */
    GELVANH_PASTE = 5,     /* its end: the text is with the caller */
    GELVANH_CURSOR = 6,    /* column, row */
    GELVANH_FLAGS = 7,     /* flags */
    GELVANH_ATTRIBUTES = 8,
    GELVANH_RESIZE = 9     /* column and row: how many the window has. No bytes mean it; a caller holds it */
};

enum gelvanh_key {
    GELVANH_BACKSPACE, GELVANH_ENTER, GELVANH_LEFT, GELVANH_RIGHT, GELVANH_UP, GELVANH_DOWN, GELVANH_HOME, GELVANH_END,
    GELVANH_PAGE_UP, GELVANH_PAGE_DOWN, GELVANH_TAB, GELVANH_BACK_TAB, GELVANH_DELETE, GELVANH_INSERT,
    GELVANH_F,    /* value is the number: 1 is F1 */
    GELVANH_CHAR, /* value is the character, by its code point */
    GELVANH_NULL, GELVANH_ESC, GELVANH_CAPS_LOCK, GELVANH_SCROLL_LOCK, GELVANH_NUM_LOCK, GELVANH_PRINT_SCREEN, GELVANH_PAUSE,
    GELVANH_MENU, GELVANH_KEYPAD_BEGIN,
    GELVANH_MEDIA,   /* value is crossterm's MediaKeyCode, in declared order */
    GELVANH_MODIFIER /* value is crossterm's ModifierKeyCode, in declared order */
};

/* modifiers */
enum { GELVANH_SHIFT = 1, GELVANH_CONTROL = 2, GELVANH_ALT = 4, GELVANH_SUPER = 8, GELVANH_HYPER = 16, GELVANH_META = 32 };

/* press */
enum { GELVANH_PRESS, GELVANH_REPEAT, GELVANH_RELEASE };

/* flags, and the field first of GELVANH_PUSH_KEYBOARD_FLAGS */
enum {
    GELVANH_DISAMBIGUATE_ESCAPE_CODES = 1, GELVANH_REPORT_EVENT_TYPES = 2, GELVANH_REPORT_ALTERNATE_KEYS = 4,
    GELVANH_REPORT_ALL_KEYS_AS_ESCAPE_CODES = 8, GELVANH_REPORT_ASSOCIATED_TEXT = 16
};

/* What the mouse did, with its button in value. */
enum gelvanh_mouse {
    GELVANH_BUTTON_DOWN, GELVANH_BUTTON_UP, GELVANH_DRAG, GELVANH_MOVED,
    GELVANH_WHEEL_DOWN, GELVANH_WHEEL_UP, GELVANH_WHEEL_LEFT, GELVANH_WHEEL_RIGHT
};
enum { GELVANH_BUTTON_LEFT, GELVANH_BUTTON_RIGHT, GELVANH_BUTTON_MIDDLE };

/* An event. The fields that its kind doesn't name are 0: gelvanh_feed gives them so, and you owe them so to gelvanh_hold. An event with another
 * of them is held as it is, but in the class GELVANH_EVENTS, whatever its kind. */
struct gelvanh_event {
    uint16_t kind, code;
    uint32_t value;
    uint16_t column, row; /* from 0, but of a resize */
    uint8_t modifiers, press, state, flags;
};

/* The version of the archive, as GELVANH_VERSION_NUMBER is the header's: for a program that finds the functions by name. */
uint32_t gelvanh_version(void);

/* Takes bytes of a terminal, and returns how many. `count` is how many events they gave, which are in front of `events`. What is behind
 * these is the call's to use, and so are the numbers of `state` that its kind doesn't use.
 *
 * It stops when all are taken, when the table of `room` events is full, and after the byte with which a paste opens or is over; then
 * the others are handed in again. So if a paste was open before the call, all bytes taken are of it: the caller keeps them, and if
 * the paste is over its event is the only one, and its text that of the bytes kept but the last six.
 *
 * `more` says that bytes of the same answer of the terminal follow at once, so that ESC at the end is no Esc key yet. `raw` is the mode
 * that the bytes came in: there a line feed is Ctrl-J, and Enter otherwise. */
size_t gelvanh_feed(struct gelvanh_state *state, const uint8_t *piece, size_t length, gelvanh_bool more, gelvanh_bool raw,
                    struct gelvanh_event *events, size_t room, size_t *count);

/* Whether bytes were taken that are no whole sequence yet. */
gelvanh_bool gelvanh_is_undecided(const struct gelvanh_state *state);

/* Whether a paste is open, whose bytes the caller keeps. */
gelvanh_bool gelvanh_is_pasting(const struct gelvanh_state *state);

/* Writes the text of a paste's bytes (without the six of its end), with U+FFFD for each maximal part that isn't UTF-8, as far as the
 * next character has room. It returns how many bytes were read: the text of the others is still missing. `written` is how many bytes
 * were written; what is behind them in `text` is the call's to use. With room for three times the bytes all are read. */
size_t gelvanh_paste_text(const uint8_t *bytes, size_t length, uint8_t *text, size_t room, size_t *written);

/* An event that is held, and how many events arrived before it. */
struct gelvanh_held {
    struct gelvanh_event event;
    uint64_t arrival;
};

/* A reader: which places of the caller's table hold events, in the order of their arrival. All zeros is one that no event has reached. The
 * table may grow at its end between calls. A paste's bytes stay with the caller, under the number of its event. */
struct gelvanh_reader {
    size_t first, held;
    uint64_t arrivals; /* the number of the next event; it stays at the greatest */
};

/* Classes of events, or sums of them. */
enum {
    GELVANH_EVENTS = 1,            /* what a user brought about: all but replies */
    GELVANH_CURSOR_REPLIES = 2,
    GELVANH_FLAGS_REPLIES = 4,
    GELVANH_ATTRIBUTES_REPLIES = 8 /* also the reply to a query for the flags, if the terminal has none */
};

/* Holds an event behind those that are held, and returns whether the table of `room` places had one more: else nothing has changed. */
gelvanh_bool gelvanh_hold(struct gelvanh_reader *reader, struct gelvanh_held *table, size_t room, const struct gelvanh_event *event);

/* Whether an event of one of some classes is held. */
gelvanh_bool gelvanh_holds(const struct gelvanh_reader *reader, const struct gelvanh_held *table, size_t room, uint32_t classes);

/* Takes the first held event of one of some classes, and returns whether there was one: else nothing has changed. The others stay, in their
 * order. */
gelvanh_bool gelvanh_take(struct gelvanh_reader *reader, struct gelvanh_held *table, size_t room, uint32_t classes, struct gelvanh_held *taken);

/* Takes bytes of a terminal as gelvanh_feed does, and holds their events as gelvanh_hold does, each with its number. It returns how many bytes it
 * took. `count` is how many events it held, which are the last held ones.
 *
 * It stops when all are taken, when the table of `room` places is full, and after the byte with which a paste opens or is over; then the
 * others are handed in again. The caller keeps the bytes of a paste as for gelvanh_feed: its event has the number `arrivals` before the call. */
size_t gelvanh_feed_held(struct gelvanh_state *state, const uint8_t *piece, size_t length, gelvanh_bool more, gelvanh_bool raw,
                         struct gelvanh_reader *reader, struct gelvanh_held *table, size_t room, size_t *count);

/* Takes the first held events of some classes, in their order, as far as there is room for `most` in `taken`, and returns how many: so many calls
 * of gelvanh_take would take the same. The others stay, in their order, and what is behind the events in `taken` stays as it was. */
size_t gelvanh_take_some(struct gelvanh_reader *reader, struct gelvanh_held *table, size_t room, uint32_t classes,
                         struct gelvanh_held *taken, size_t most);

/* A colour: 0 none, 1 the terminal's own, 2 to 17 by name, 18 by its parts, 19 by its place in the palette, which is r. */
struct gelvanh_color {
    uint8_t kind, r, g, b;
};
enum {
    GELVANH_NO_COLOR, GELVANH_RESET, GELVANH_BLACK, GELVANH_DARK_GREY, GELVANH_RED, GELVANH_DARK_RED, GELVANH_GREEN, GELVANH_DARK_GREEN,
    GELVANH_YELLOW, GELVANH_DARK_YELLOW, GELVANH_BLUE, GELVANH_DARK_BLUE, GELVANH_MAGENTA, GELVANH_DARK_MAGENTA, GELVANH_CYAN,
    GELVANH_DARK_CYAN, GELVANH_WHITE, GELVANH_GREY, GELVANH_RGB, GELVANH_PALETTE
};

/* How a text looks, by colours that may be none. A part of a prompt has one, as gelvanh_line.h says. */
struct gelvanh_style {
    struct gelvanh_color foreground, background, underline;
    uint32_t attributes; /* a bit for each attribute, the first from bit 1 on */
};

/* Commands by their places in the list of all. A trailing comment names the fields that count. */
enum gelvanh_command_kind {
    GELVANH_MOVE_TO,                /* first: column, second: row, from 0 */
    GELVANH_MOVE_TO_COLUMN,         /* first */
    GELVANH_MOVE_TO_ROW,            /* first */
    GELVANH_MOVE_TO_NEXT_LINE,      /* first: how many */
    GELVANH_MOVE_TO_PREVIOUS_LINE,  /* first */
    GELVANH_MOVE_UP,                /* first */
    GELVANH_MOVE_DOWN,              /* first */
    GELVANH_MOVE_RIGHT,             /* first */
    GELVANH_MOVE_LEFT,              /* first */
    GELVANH_SAVE_POSITION,
    GELVANH_RESTORE_POSITION,
    GELVANH_HIDE,
    GELVANH_SHOW,
    GELVANH_ENABLE_BLINKING,
    GELVANH_DISABLE_BLINKING,
    GELVANH_SET_CURSOR_STYLE,       /* first: 0 to 6, as DECSCUSR */
    GELVANH_DISABLE_LINE_WRAP,
    GELVANH_ENABLE_LINE_WRAP,
    GELVANH_ENTER_ALTERNATE_SCREEN,
    GELVANH_LEAVE_ALTERNATE_SCREEN,
    GELVANH_CLEAR,                  /* first: 0 all, 1 purge, 2 from the cursor down, 3 up to it, 4 the line, 5 to its end */
    GELVANH_SCROLL_UP,              /* first */
    GELVANH_SCROLL_DOWN,            /* first */
    GELVANH_SET_SIZE,               /* first: columns, second: rows */
    GELVANH_SET_TITLE,              /* by gelvanh_set_title */
    GELVANH_BEGIN_SYNCHRONIZED_UPDATE,
    GELVANH_END_SYNCHRONIZED_UPDATE,
    GELVANH_ENABLE_MOUSE_CAPTURE,
    GELVANH_DISABLE_MOUSE_CAPTURE,
    GELVANH_ENABLE_FOCUS_CHANGE,
    GELVANH_DISABLE_FOCUS_CHANGE,
    GELVANH_ENABLE_BRACKETED_PASTE,
    GELVANH_DISABLE_BRACKETED_PASTE,
    GELVANH_PUSH_KEYBOARD_FLAGS,    /* first: the bits */
    GELVANH_POP_KEYBOARD_FLAGS,
    GELVANH_SET_FOREGROUND_COLOR,   /* foreground */
    GELVANH_SET_BACKGROUND_COLOR,   /* background */
    GELVANH_SET_UNDERLINE_COLOR,    /* underline */
    GELVANH_SET_COLORS,             /* foreground, background */
    GELVANH_SET_ATTRIBUTE,          /* first: its place in crossterm's enum */
    GELVANH_SET_ATTRIBUTES,         /* attributes */
    GELVANH_SET_STYLE,              /* foreground, background, underline, attributes */
    GELVANH_PRINT_STYLED_CONTENT,   /* by gelvanh_print_styled */
    GELVANH_RESET_COLOR,
    GELVANH_COPY_TO_CLIPBOARD,      /* by gelvanh_copy_to_clipboard */
    GELVANH_PRINT                   /* by gelvanh_print */
};

struct gelvanh_command {
    uint32_t kind;
    uint32_t attributes; /* a bit for each attribute, the first from bit 1 on */
    uint16_t first, second;
    struct gelvanh_color foreground, background, underline;
};

/* What came of a command. */
enum gelvanh_outcome {
    GELVANH_WRITTEN,      /* its text was written; `length` is how many bytes it has */
    GELVANH_TOO_SMALL,    /* it has more bytes than there is room, `length` is how many; nothing was written */
    GELVANH_NAMES_NOTHING,/* the numbers name no command, or the text isn't UTF-8; nothing was written */
    GELVANH_FAILED        /* the command failed by itself, which none is known to: `length` is 0, and the slice may hold anything */
};

/* Writes a command that has no text of its own. `colors` is false if colours aren't to be written, as with NO_COLOR. The archive has it under the
 * struct's name, by which C++ would find the function alone; so a call has that name still, and `gelvanh_command c{};` is the struct. */
uint32_t gelvanh_write_command(const struct gelvanh_command *command, gelvanh_bool colors, uint8_t *slice, size_t room, size_t *length)
    __asm__("gelvanh_command");
#define gelvanh_command(command, colors, slice, room, length) gelvanh_write_command(command, colors, slice, room, length)

/* The four that have one. Texts, titles and places are UTF-8; the places of a copy are letters, `c` the clipboard, `p` the selection. */
uint32_t gelvanh_print(const uint8_t *text, size_t text_length, uint8_t *slice, size_t room, size_t *length);
uint32_t gelvanh_set_title(const uint8_t *title, size_t title_length, uint8_t *slice, size_t room, size_t *length);
uint32_t gelvanh_print_styled(const struct gelvanh_command *style, const uint8_t *text, size_t text_length, gelvanh_bool colors,
                              uint8_t *slice, size_t room, size_t *length);
uint32_t gelvanh_copy_to_clipboard(const uint8_t *content, size_t content_length, const uint8_t *places, size_t places_length,
                                   uint8_t *slice, size_t room, size_t *length);

/* The sizes are fixed by the proved crate's tests too; that its fields are at these places is tried by bindings/try/run. An array of
 * negative size is an error in C89 and C++98 too. */
#define GELVANH_CHECK(name, test) typedef char gelvanh_check_##name[(test) ? 1 : -1]
GELVANH_CHECK(state, sizeof(struct gelvanh_state) == 52);
GELVANH_CHECK(state_begun, offsetof(struct gelvanh_state, begun) == 8);
GELVANH_CHECK(state_one, offsetof(struct gelvanh_state, one) == 12);
GELVANH_CHECK(state_three, offsetof(struct gelvanh_state, three) == 44);
GELVANH_CHECK(event, sizeof(struct gelvanh_event) == 16);
GELVANH_CHECK(event_value, offsetof(struct gelvanh_event, value) == 4);
GELVANH_CHECK(event_column, offsetof(struct gelvanh_event, column) == 8);
GELVANH_CHECK(event_modifiers, offsetof(struct gelvanh_event, modifiers) == 12);
GELVANH_CHECK(event_flags, offsetof(struct gelvanh_event, flags) == 15);
GELVANH_CHECK(held, sizeof(struct gelvanh_held) == 24);
GELVANH_CHECK(held_arrival, offsetof(struct gelvanh_held, arrival) == 16);
GELVANH_CHECK(reader, sizeof(struct gelvanh_reader) == 24);
GELVANH_CHECK(reader_held, offsetof(struct gelvanh_reader, held) == 8);
GELVANH_CHECK(reader_arrivals, offsetof(struct gelvanh_reader, arrivals) == 16);
GELVANH_CHECK(color, sizeof(struct gelvanh_color) == 4);
GELVANH_CHECK(style, sizeof(struct gelvanh_style) == 16);
GELVANH_CHECK(style_attributes, offsetof(struct gelvanh_style, attributes) == 12);
GELVANH_CHECK(command, sizeof(struct gelvanh_command) == 24);
GELVANH_CHECK(command_attributes, offsetof(struct gelvanh_command, attributes) == 4);
GELVANH_CHECK(command_foreground, offsetof(struct gelvanh_command, foreground) == 12);
GELVANH_CHECK(command_underline, offsetof(struct gelvanh_command, underline) == 20);
GELVANH_CHECK(commands, GELVANH_PRINT == 45);
GELVANH_CHECK(bool, sizeof(gelvanh_bool) == 1);
#undef GELVANH_CHECK

#ifdef __cplusplus
}
#endif

#endif
