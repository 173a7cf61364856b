/* Gelvanh's line editor (crates/line_c), an archive of its own since it takes memory: by malloc, realloc and free. It edits a line by the usual
 * keys of GNU readline, with an undo, killed text and a history, and says what is to be written to the terminal. It reads and writes nothing by
 * itself. The events are those of gelvanh.h.
 *
 * What a caller owes: each pointer is valid for its length (with a length of 0 it may be NULL), and what two arguments point to doesn't overlap if
 * one of them is written. A line is one that gelvanh_line_new began, and gelvanh_line_free didn't end; it isn't copied beside another that is
 * used. One thread at a time calls with it, so that two threads take a lock. */
#ifndef GELVANH_LINE_H
#define GELVANH_LINE_H

#include "gelvanh.h"

#ifdef __cplusplus
extern "C" {
#endif

/* A line that is edited, with all that belongs to it. What it points to is the archive's. */
struct gelvanh_line {
    void *at;
};

/* How much it holds at most. */
struct gelvanh_line_limits {
    size_t bytes; /* of a line in UTF-8: a longer one is refused */
    size_t lines; /* of the history: the oldest is forgotten for a further one */
    size_t steps; /* of each line that can be undone: the oldest is forgotten for a further one */
    size_t kills; /* that can be yanked: the oldest is forgotten for a further one */
    gelvanh_bool ignore_dups;  /* whether a line that equals the newest of the history isn't kept once more */
    gelvanh_bool ignore_space; /* whether a line that begins with a blank isn't kept */
};

/* The limits that most programs want, and other fields too if some follow: struct gelvanh_line_limits limits = GELVANH_LINE_LIMITS; */
#define GELVANH_LINE_LIMITS {65536, 1000, 1000, 60, 0, 0}

/* What came of a call. After the three that refuse something nothing has changed. If others follow the last some day, the line goes on. */
enum gelvanh_line_answer {
    GELVANH_LINE_GOES_ON,     /* it is done, and the line goes on */
    GELVANH_LINE_ACCEPTED,    /* by Enter: gelvanh_line_accepted has its text, which is in the history if the limits allow it */
    GELVANH_LINE_INTERRUPTED, /* by Ctrl-C: the line is empty again */
    GELVANH_LINE_CLOSED,      /* by Ctrl-D in an empty line */
    GELVANH_LINE_TOO_LONG,    /* the text has no room in the line */
    GELVANH_LINE_NO_MEMORY,   /* memory was refused */
    GELVANH_LINE_UNKNOWN,     /* what was given is none: numbers that are no event's or no style's, a text that isn't UTF-8 */
    GELVANH_LINE_RINGS        /* the line goes on, and a bell is in place: an incremental search found nothing, or there is none to give up */
};

/* Begins a line, which is empty and has no history. GELVANH_LINE_GOES_ON, or GELVANH_LINE_NO_MEMORY: then there is none to end. */
uint32_t gelvanh_line_new(struct gelvanh_line *line, const struct gelvanh_line_limits *limits);

/* Ends it, and frees its memory. */
void gelvanh_line_free(struct gelvanh_line line);

/* Takes a prompt and how many columns and rows the window has; 0 of them, as a serial line says, count as 80 and 24. The prompt has no style and
 * may be empty. The line is shown from the cursor's row on, in as many rows as it takes. Nothing is known of them then, so that the next
 * gelvanh_line_show draws all of it: so call it for each line. The line's text stays.
 *
 * GELVANH_LINE_GOES_ON, GELVANH_LINE_NO_MEMORY, or GELVANH_LINE_UNKNOWN if the prompt isn't UTF-8 or has a control character. */
uint32_t gelvanh_line_begin(struct gelvanh_line *line, const uint8_t *prompt, size_t length, uint16_t columns, uint16_t rows);

/* Puts a part in a style behind what there is of the prompt: with the next gelvanh_line_begin the prompt has no parts again. They are shown as
 * if colours are written, so a program that is asked for none, as by NO_COLOR, gives a style without them. A style of zeros has none.
 *
 * GELVANH_LINE_GOES_ON, GELVANH_LINE_NO_MEMORY, or GELVANH_LINE_UNKNOWN if the text isn't UTF-8 or has a control character, or the style has a
 * colour of a kind that isn't listed, or bits of no attribute. */
uint32_t gelvanh_line_prompt(struct gelvanh_line *line, const uint8_t *text, size_t length, const struct gelvanh_style *style);

/* Takes another size of the window, as after SIGWINCH: the output erases the rows from the first one on, and the next gelvanh_line_show draws all of
 * them there. A terminal that has wrapped them anew by itself may leave some of them above.
 *
 * GELVANH_LINE_GOES_ON, or GELVANH_LINE_NO_MEMORY. */
uint32_t gelvanh_line_resize(struct gelvanh_line *line, uint16_t columns, uint16_t rows);

/* Shows the line, nothing of it, or a star for each of its characters, from the next gelvanh_line_show on. A hidden line has no hint, lists no
 * names, and shows no search. A password is typed in a line of its own, whose limits keep no lines: gelvanh_line_free forgets it.
 *
 * GELVANH_LINE_GOES_ON, or GELVANH_LINE_UNKNOWN for another number. */
enum gelvanh_line_hidden { GELVANH_LINE_SHOWN, GELVANH_LINE_NOTHING, GELVANH_LINE_STARS };
uint32_t gelvanh_line_hide(struct gelvanh_line *line, uint32_t how);

/* Takes an event. What is bound to no key, the mouse, resizes and replies change nothing but that no names are listed any more, and
 * GELVANH_LINE_GOES_ON is returned.
 *
 * Any answer. After the three by which a line ends, the output leaves its rows: the cursor is at the start of the next one, and the next
 * gelvanh_line_show draws anew. What wasn't shown of the line by then never is, so show it before a key that may end it. The end of a paste is
 * GELVANH_LINE_UNKNOWN: its text goes to gelvanh_line_paste. */
uint32_t gelvanh_line_event(struct gelvanh_line *line, const struct gelvanh_event *event);

/* Puts a text at the cursor: one of a paste, or one that completes the line. Line ends and tabs side by side become one blank, and at the text's
 * end none; other control characters are left out.
 *
 * GELVANH_LINE_GOES_ON, GELVANH_LINE_TOO_LONG, GELVANH_LINE_NO_MEMORY, or GELVANH_LINE_UNKNOWN if it isn't UTF-8. */
uint32_t gelvanh_line_paste(struct gelvanh_line *line, const uint8_t *text, size_t length);

/* Completes the word before the cursor, as at Tab, by names in UTF-8 with a line feed between them: what those that begin with it have in common is
 * put behind it. If this is called a second time in a row, these names are listed below the line, up to the next event or text.
 *
 * GELVANH_LINE_GOES_ON, GELVANH_LINE_TOO_LONG, GELVANH_LINE_NO_MEMORY, or GELVANH_LINE_UNKNOWN if it isn't UTF-8. */
uint32_t gelvanh_line_complete(struct gelvanh_line *line, const uint8_t *names, size_t length);

/* Lists such names in columns below the line, up to the next event or text, for who completes lines by another rule.
 *
 * GELVANH_LINE_GOES_ON, GELVANH_LINE_NO_MEMORY, or GELVANH_LINE_UNKNOWN if they aren't UTF-8. */
uint32_t gelvanh_line_list(struct gelvanh_line *line, const uint8_t *names, size_t length);

/* Takes a text that is shown dimmed behind the line, while the cursor is at its end and the text has room. It stays until the next one; an
 * empty one shows none. It is never part of the line.
 *
 * GELVANH_LINE_GOES_ON, GELVANH_LINE_NO_MEMORY, or GELVANH_LINE_UNKNOWN if it isn't UTF-8. */
uint32_t gelvanh_line_hint(struct gelvanh_line *line, const uint8_t *hint, size_t length);

/* Lets what changed in the rows join the output; after Ctrl-L the window is cleared, and the line is at its top. While an incremental search goes
 * on, what it looks for is in the prompt's place.
 * GELVANH_LINE_GOES_ON, or GELVANH_LINE_NO_MEMORY: then the next call draws all of the rows. */
uint32_t gelvanh_line_show(struct gelvanh_line *line);

/* Moves output into a slice, and returns how many bytes; 0 if none are left. It may be less than `room` and than what is left: call it again. */
size_t gelvanh_line_output(struct gelvanh_line *line, uint8_t *slice, size_t room);

/* Copies the line's text into a slice, if it fits, and returns its length: with a greater one than `room` the slice is unchanged. */
size_t gelvanh_line_text(struct gelvanh_line *line, uint8_t *slice, size_t room);

/* How many bytes of the line's text are before the cursor. */
size_t gelvanh_line_cursor(struct gelvanh_line *line);

/* The same as gelvanh_line_text of the line that was accepted last; it is empty before the first. */
size_t gelvanh_line_accepted(struct gelvanh_line *line, uint8_t *slice, size_t room);

/* Copies the history into a slice, if it fits, and its length into `length`: the accepted lines from the oldest on, each with a line feed behind it.
 * GELVANH_LINE_GOES_ON, or GELVANH_LINE_NO_MEMORY: then `length` and the slice are unchanged. */
uint32_t gelvanh_line_history(struct gelvanh_line *line, uint8_t *slice, size_t room, size_t *length);

/* Takes the history from such a text, in the place of the one before. Lines that are empty or too long are left out, and the oldest of too many.
 * GELVANH_LINE_GOES_ON, GELVANH_LINE_NO_MEMORY, or GELVANH_LINE_UNKNOWN if it isn't UTF-8. */
uint32_t gelvanh_line_load_history(struct gelvanh_line *line, const uint8_t *text, size_t length);

/* Sizes and places are checked as in gelvanh.h. */
#define GELVANH_CHECK(name, test) typedef char gelvanh_line_check_##name[(test) ? 1 : -1]
GELVANH_CHECK(line, sizeof(struct gelvanh_line) == sizeof(void *));
GELVANH_CHECK(limits, sizeof(struct gelvanh_line_limits) == 40);
GELVANH_CHECK(limits_lines, offsetof(struct gelvanh_line_limits, lines) == 8);
GELVANH_CHECK(limits_steps, offsetof(struct gelvanh_line_limits, steps) == 16);
GELVANH_CHECK(limits_kills, offsetof(struct gelvanh_line_limits, kills) == 24);
GELVANH_CHECK(limits_ignore_dups, offsetof(struct gelvanh_line_limits, ignore_dups) == 32);
GELVANH_CHECK(limits_ignore_space, offsetof(struct gelvanh_line_limits, ignore_space) == 33);
GELVANH_CHECK(answers, GELVANH_LINE_RINGS == 7);
GELVANH_CHECK(hidden, GELVANH_LINE_STARS == 2);
#undef GELVANH_CHECK

#ifdef __cplusplus
}
#endif

#endif
