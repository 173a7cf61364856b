/* A menu in a terminal: raw mode, the window's resizes, and a wait for both. Up, Down, the wheel and clicks choose; Enter or Esc ends it.
 *
 * cc -o menu bindings/c/menu.c $(pkg-config --cflags --libs gelvanh) && ./menu */
#define _DEFAULT_SOURCE
#include "gelvanh.h"
#include <poll.h>
#include <signal.h>
#include <stdio.h>
#include <string.h>
#include <sys/ioctl.h>
#include <termios.h>
#include <unistd.h>

enum { COUNT = 4 };
static const char *const entries[COUNT] = {"Open", "Save", "Rename", "Quit"};

static uint8_t out[4096];
static size_t used;
static int wake[2]; /* a byte comes through it at each resize */

static void on_resize(int signal) {
    ssize_t written = write(wake[1], "", 1);
    (void)signal, (void)written;
}

/* Puts a command behind the others, if there is room. */
static void put(uint32_t kind, unsigned first, unsigned second) {
    struct gelvanh_command command;
    size_t length;
    memset(&command, 0, sizeof command);
    command.kind = kind;
    command.first = (uint16_t)first;
    command.second = (uint16_t)second;
    if (gelvanh_write_command(&command, 1, out + used, sizeof out - used, &length) == GELVANH_WRITTEN)
        used += length;
}

static void put_text(const char *text, size_t length) {
    size_t written;
    if (gelvanh_print((const uint8_t *)text, length, out + used, sizeof out - used, &written) == GELVANH_WRITTEN)
        used += written;
}

static void flush(void) {
    size_t done = 0;
    while (done < used) {
        ssize_t written = write(1, out + done, used - done);
        if (written < 0)
            break;
        done += (size_t)written;
    }
    used = 0;
}

/* Shows as many entries as the window has rows, cut at its columns: the chosen one in bold. */
static void draw(unsigned chosen) {
    struct winsize size = {24, 80, 0, 0};
    unsigned row;
    ioctl(1, TIOCGWINSZ, &size);
    put(GELVANH_CLEAR, 0, 0);
    for (row = 0; row < COUNT && row < size.ws_row; row++) {
        size_t length = strlen(entries[row]);
        put(GELVANH_MOVE_TO, 0, row);
        put(GELVANH_SET_ATTRIBUTE, row == chosen ? 1 : 0, 0);
        put_text(entries[row], length < size.ws_col ? length : size.ws_col);
    }
    flush();
}

/* What an event makes of the choice. It sets `is_over` at the menu's end: to 1 for a choice, to 2 for none. */
static unsigned chosen_after(const struct gelvanh_event *e, unsigned chosen, int *is_over) {
    int is_press = e->kind == GELVANH_KEY && e->press != GELVANH_RELEASE, is_mouse = e->kind == GELVANH_MOUSE;
    if ((is_press && e->code == GELVANH_UP) || (is_mouse && e->code == GELVANH_WHEEL_UP))
        return chosen > 0 ? chosen - 1 : 0;
    if ((is_press && e->code == GELVANH_DOWN) || (is_mouse && e->code == GELVANH_WHEEL_DOWN))
        return chosen + 1 < COUNT ? chosen + 1 : chosen;
    if (is_mouse && e->code == GELVANH_BUTTON_DOWN && e->row < COUNT)
        return e->row;
    if (is_press && (e->code == GELVANH_ENTER || e->code == GELVANH_ESC))
        *is_over = e->code == GELVANH_ENTER ? 1 : 2;
    return chosen;
}

/* Waits, reads what is there, and returns whether there may be more. */
static int turn(struct gelvanh_state *state, unsigned *chosen, int *is_over) {
    struct pollfd fds[2] = {{0, POLLIN, 0}, {0, POLLIN, 0}};
    struct gelvanh_event events[64];
    uint8_t buffer[1024], *piece = buffer;
    size_t i, taken, count;
    ssize_t left = 0;
    fds[1].fd = wake[0];
    draw(*chosen);
    if (poll(fds, 2, -1) < 0)
        return 1; /* a signal came, and its byte is in the pipe */
    if (fds[1].revents)
        left = read(wake[0], buffer, 1);
    if (!fds[0].revents)
        return left >= 0;
    left = read(0, buffer, sizeof buffer);
    if (left <= 0)
        return 0;
    for (i = (size_t)left; i > 0 && !*is_over; i -= taken, piece += taken) {
        size_t k;
        taken = gelvanh_feed(state, piece, i, left == sizeof buffer, 1, events, 64, &count);
        for (k = 0; k < count && !*is_over; k++)
            *chosen = chosen_after(&events[k], *chosen, is_over);
    }
    return 1;
}

int main(void) {
    static struct gelvanh_state state; /* all zeros */
    struct termios before, raw;
    struct sigaction action;
    unsigned chosen = 0;
    int is_over = 0;
    if (tcgetattr(0, &before) != 0 || pipe(wake) != 0)
        return perror("menu"), 1;
    memset(&action, 0, sizeof action);
    action.sa_handler = on_resize;
    sigaction(SIGWINCH, &action, NULL);
    raw = before;
    cfmakeraw(&raw);
    tcsetattr(0, TCSANOW, &raw);
    put(GELVANH_ENTER_ALTERNATE_SCREEN, 0, 0);
    put(GELVANH_HIDE, 0, 0);
    put(GELVANH_ENABLE_MOUSE_CAPTURE, 0, 0);
    while (!is_over && turn(&state, &chosen, &is_over))
        ;
    put(GELVANH_DISABLE_MOUSE_CAPTURE, 0, 0);
    put(GELVANH_SHOW, 0, 0);
    put(GELVANH_LEAVE_ALTERNATE_SCREEN, 0, 0);
    flush();
    tcsetattr(0, TCSANOW, &before);
    if (is_over == 1)
        printf("%s\n", entries[chosen]);
    return is_over ? 0 : 1;
}
