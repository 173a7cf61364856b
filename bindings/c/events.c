/* Prints the events of standard input, a line each. */
#include "gelvanh.h"
#include <stdio.h>
#include <stdlib.h>
#include <string.h>
#include <unistd.h>

/* The bytes of an open paste. */
static uint8_t *kept;
static size_t kept_length, kept_room;

static void keep(const uint8_t *bytes, size_t length) {
    if (kept_length + length > kept_room) {
        kept_room = 2 * (kept_length + length);
        kept = (uint8_t *)realloc(kept, kept_room);
        if (kept == NULL)
            exit(1);
    }
    memcpy(kept + kept_length, bytes, length);
    kept_length += length;
}

static void print_paste(void) {
    uint8_t text[256];
    size_t written, read = 0, length = kept_length - 6;
    printf("paste ");
    while (read < length) {
        read += gelvanh_paste_text(kept + read, length - read, text, sizeof text, &written);
        fwrite(text, 1, written, stdout);
    }
    printf("\n");
    kept_length = 0;
}

static void print_event(const struct gelvanh_event *e) {
    switch (e->kind) {
    case GELVANH_KEY:
        printf("key %u %u modifiers %u press %u state %u\n", e->code, e->value, e->modifiers, e->press, e->state);
        break;
    case GELVANH_MOUSE:
        printf("mouse %u %u at %u %u modifiers %u\n", e->code, e->value, e->column, e->row, e->modifiers);
        break;
    case GELVANH_PASTE:
        print_paste();
        break;
    case GELVANH_CURSOR:
        printf("cursor %u %u\n", e->column, e->row);
        break;
    case GELVANH_FLAGS:
        printf("flags %u\n", e->flags);
        break;
    default:
        printf("event %u\n", e->kind);
    }
}

static void feed(struct gelvanh_state *state, const uint8_t *piece, size_t length, gelvanh_bool more) {
    struct gelvanh_event events[64];
    while (length > 0) {
        size_t count, i;
        gelvanh_bool pasting = gelvanh_is_pasting(state);
        size_t taken = gelvanh_feed(state, piece, length, more, 1, events, 64, &count);
        if (pasting)
            keep(piece, taken);
        for (i = 0; i < count; i++)
            print_event(&events[i]);
        piece += taken;
        length -= taken;
    }
}

int main(void) {
    static struct gelvanh_state state; /* all zeros */
    uint8_t buffer[1024];
    ssize_t n;
    while ((n = read(0, buffer, sizeof buffer)) > 0)
        feed(&state, buffer, (size_t)n, (size_t)n == sizeof buffer);
    free(kept);
    return 0;
}
