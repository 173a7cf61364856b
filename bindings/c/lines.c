/* Asks for lines, and prints each: what linenoise is for. The first archive's parser makes events of bytes, and the line editor a line of events.
 *
 * cc -o lines bindings/c/lines.c $(pkg-config --cflags --libs gelvanh) && ./lines */
#ifndef _GNU_SOURCE
#define _GNU_SOURCE
#endif
#include "gelvanh_line.h"
#include <poll.h>
#include <signal.h>
#include <stdio.h>
#include <string.h>
#include <sys/ioctl.h>
#include <termios.h>
#include <unistd.h>

static struct gelvanh_line line;

static void on_resize(int signal) {
    (void)signal;
}

/* Writes a text, and behind it what the line has for the terminal. */
static int put(const char *text) {
    uint8_t bytes[1024];
    size_t count = strlen(text);
    int done = write(1, text, count) == (ssize_t)count;
    while (done && (count = gelvanh_line_output(&line, bytes, sizeof bytes)) > 0)
        done = write(1, bytes, count) == (ssize_t)count;
    return done;
}

/* Begins a line behind a green prompt in a window as it is now, or goes on with it in one of another size. */
static int begin(int is_resized) {
    static const struct gelvanh_style green = {{GELVANH_GREEN, 0, 0, 0}, {0, 0, 0, 0}, {0, 0, 0, 0}, 0};
    struct winsize size = {0, 0, 0, 0};
    ioctl(1, TIOCGWINSZ, &size);
    if (is_resized)
        return gelvanh_line_resize(&line, size.ws_col, size.ws_row) == GELVANH_LINE_GOES_ON;
    return gelvanh_line_begin(&line, NULL, 0, size.ws_col, size.ws_row) == GELVANH_LINE_GOES_ON &&
           gelvanh_line_prompt(&line, (const uint8_t *)"> ", 2, &green) == GELVANH_LINE_GOES_ON;
}

static int show(void) {
    return gelvanh_line_show(&line) == GELVANH_LINE_GOES_ON && put("");
}

/* Waits for the next event, with the line shown, and returns whether one came. What was read behind it is there for the next call. */
static int next(struct gelvanh_event *event) {
    static struct gelvanh_state parser; /* all zeros */
    static uint8_t bytes[1024];
    static ssize_t from, to;
    struct pollfd fd = {0, POLLIN, 0};
    sigset_t none;
    size_t count = 0;
    sigemptyset(&none);
    while (count == 0) {
        if (from == to) {
            if (!show())
                return 0;
            while (ppoll(&fd, 1, NULL, &none) < 0) /* a resize, which waits for this */
                if (!begin(1) || !show())
                    return 0;
            from = 0;
            to = read(0, bytes, sizeof bytes);
            if (to <= 0)
                return to = 0;
        }
        from += (ssize_t)gelvanh_feed(&parser, bytes + from, (size_t)(to - from), to == sizeof bytes, 1, event, 1, &count);
    }
    return 1;
}

/* Whether a key may end the line, which is shown as it is before that. */
static int may_end(const struct gelvanh_event *event) {
    return event->kind == GELVANH_KEY && (event->code == GELVANH_ENTER || (event->modifiers & GELVANH_CONTROL));
}

/* Asks for a line, and returns how it ended; at the end of input it is closed. */
static uint32_t read_line(void) {
    struct gelvanh_event event;
    uint32_t answer;
    if (!begin(0))
        return GELVANH_LINE_CLOSED;
    do {
        if (!next(&event) || (may_end(&event) && !show()))
            return GELVANH_LINE_CLOSED;
        answer = gelvanh_line_event(&line, &event);
        if ((answer == GELVANH_LINE_TOO_LONG || answer == GELVANH_LINE_RINGS) && !put("\a"))
            return GELVANH_LINE_CLOSED;
    } while (answer == GELVANH_LINE_GOES_ON || answer > GELVANH_LINE_CLOSED);
    return put("") ? answer : (uint32_t)GELVANH_LINE_CLOSED;
}

int main(void) {
    static const struct gelvanh_line_limits limits = GELVANH_LINE_LIMITS;
    static uint8_t text[65536];
    struct termios before, raw;
    struct sigaction action;
    sigset_t resize;
    int is_terminal = tcgetattr(0, &before) == 0;
    uint32_t answer;
    memset(&action, 0, sizeof action);
    action.sa_handler = on_resize;
    sigaction(SIGWINCH, &action, NULL);
    sigemptyset(&resize);
    sigaddset(&resize, SIGWINCH);
    sigprocmask(SIG_BLOCK, &resize, NULL);
    if (gelvanh_line_new(&line, &limits) != GELVANH_LINE_GOES_ON)
        return perror("lines"), 1;
    if (is_terminal) {
        raw = before;
        cfmakeraw(&raw);
        tcsetattr(0, TCSADRAIN, &raw);
    }
    while ((answer = read_line()) != GELVANH_LINE_CLOSED) {
        if (answer == GELVANH_LINE_ACCEPTED)
            printf("%.*s\r\n", (int)gelvanh_line_accepted(&line, text, sizeof text), (const char *)text);
        fflush(stdout);
    }
    if (is_terminal)
        tcsetattr(0, TCSADRAIN, &before);
    gelvanh_line_free(line);
    return 0;
}
