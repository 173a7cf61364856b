/* Random scripts of a line, and what comes of them. Words of a script: `b80,24:3e20` begins a line with a prompt, `q1:3e20` adds a part in a style to it,
 * `r40,9` is another size, `h2` hides the line, `k15,97,0,0` is a key by code, value, modifiers and press, `p6162` a paste, `y6f6e650a` a history, and `s` shows.
 *
 * play scripts COUNT        prints scripts, a line each
 * play run < SCRIPTS        prints a line for each: answers, accepted lines, the text and its part before the cursor, the history, the output
 * play refuse < SCRIPTS     plays each with every allocation refused in turn: then nothing has changed, and the call made again does it
 *
 * It is linked with -Wl,--wrap=malloc,--wrap=realloc. */
#include "gelvanh_line.h"
#include <stdbool.h>
#include <stdio.h>
#include <stdlib.h>
#include <string.h>

void *__real_malloc(size_t size);
void *__real_realloc(void *old, size_t size);
void *__wrap_malloc(size_t size);
void *__wrap_realloc(void *old, size_t size);

/* How many allocations succeed before one is refused; none is while it is negative. */
static long left = -1;
static bool was_refused;

static bool refuses(void) {
    if (left < 0 || left-- > 0)
        return false;
    was_refused = true;
    return true;
}

void *__wrap_malloc(size_t size) {
    return refuses() ? NULL : __real_malloc(size);
}

void *__wrap_realloc(void *old, size_t size) {
    return refuses() ? NULL : __real_realloc(old, size);
}

static void fail(const char *what, const char *script) {
    fprintf(stderr, "%s: %s\n", what, script);
    exit(1);
}

/* Scripts. */

static uint64_t seed = 91;

static uint32_t draw(uint32_t below) {
    seed ^= seed << 13;
    seed ^= seed >> 7;
    seed ^= seed << 17;
    return (uint32_t)(seed >> 32) % below;
}

static const char *const texts[] = {
    "a", "two words", "h", "hi", "x-y_z", "caf\xc3\xa9", "\xe6\xbc\xa2\xe5\xad\x97", "e\xcc\x81", "\xf0\x9f\x91\xa9\xe2\x80\x8d\xf0\x9f\x91\xa9",
    "line\nline\tend\r\n", "\x07\x1b[A", "", "  ", "0123456789012345678901234567890123456789",
};
static const char *const prompts[] = {"> ", "", "\xe6\xbc\xa2> ", "a long prompt for a narrow window> "};
static const char *const parts[] = {"~/src", "> ", "", "\xe6\xbc\xa2", "e\xcc\x81 ", "tab\t", "\x1b[1m", "a part that is wide> "};
static const char *const histories[] = {
    "", "one\n", "hello world\nhe said\nhe said\n\nlast",
    "a very long line that has no room in the limit of sixty bytes, so it is left out\nshort\n",
};
/* The styles of parts. The last two are none: there is no colour 20, and no attribute has the bit 1. */
static const struct gelvanh_style styles[] = {
    {{0, 0, 0, 0}, {0, 0, 0, 0}, {0, 0, 0, 0}, 0},
    {{GELVANH_GREEN, 0, 0, 0}, {0, 0, 0, 0}, {0, 0, 0, 0}, 0},
    {{GELVANH_BLUE, 0, 0, 0}, {GELVANH_WHITE, 0, 0, 0}, {0, 0, 0, 0}, 4},
    {{GELVANH_RGB, 9, 8, 7}, {0, 0, 0, 0}, {GELVANH_PALETTE, 208, 0, 0}, 128 | 16},
    {{0, 0, 0, 0}, {GELVANH_RESET, 0, 0, 0}, {0, 0, 0, 0}, 256},
    {{20, 0, 0, 0}, {0, 0, 0, 0}, {0, 0, 0, 0}, 0},
    {{GELVANH_GREEN, 0, 0, 0}, {0, 0, 0, 0}, {0, 0, 0, 0}, 4 | 1},
};
enum { STYLES = sizeof styles / sizeof *styles, KNOWN = STYLES - 2 };
static const uint32_t letters[] = {'a', 'b', 'h', 'e', ' ', ' ', '-', 'Z', 0xE9, 0x6F22, 0x301, 0x1F469, 0x200D, 0x1F1E6, 0x11A8, 7};
static const char controls[] = "aabbccdeefgghhjkklmnnppqrrrrssttuuwwyy__77";
static const char alts[] = "bbddffyyyqzuulccttt..\\";

static void print_hex(const char *kind, const char *text) {
    printf("%s", kind);
    for (; *text; text++)
        printf("%02x", (unsigned char)*text);
}

static void print_begin(void) {
    printf("b%u,%u", draw(2) ? 80 : draw(40), draw(2) ? 24 : draw(6));
    print_hex(":", prompts[draw(sizeof prompts / sizeof *prompts)]);
}

static void print_part(void) {
    printf("q%u", draw(STYLES));
    print_hex(":", parts[draw(sizeof parts / sizeof *parts)]);
}

static void print_key(void) {
    uint32_t press = draw(12) == 0 ? 1 + draw(2) : 0;
    uint32_t shift = draw(8) == 0;
    switch (draw(8)) {
    case 0: case 1: case 2:
        printf("k15,%u,%u,%u", letters[draw(sizeof letters / sizeof *letters)], shift, press);
        break;
    case 3: case 4:
        printf("k15,%u,%u,%u", (unsigned)controls[draw(sizeof controls - 1)], 2 + shift, press);
        break;
    case 5:
        printf("k15,%u,%u,%u", (unsigned)alts[draw(sizeof alts - 1)], 4 + 2 * (draw(5) == 0), press);
        break;
    case 6: /* all keys by name, with any modifiers now and then */
        printf("k%u,%u,%u,%u", draw(14), 0u, draw(4) == 0 ? draw(64) : 0, press);
        break;
    default: /* those that are most of a line's */
        printf("k%u,0,%u,%u", (unsigned)"\0\0\2\2\2\3\4\4\5\6\7\10\10\11\12\12\14"[draw(17)], 2 * (draw(6) == 0), press);
    }
}

static void print_script(void) {
    uint32_t count = 1 + draw(80);
    uint32_t more = draw(3) == 0 ? 1 + draw(3) : 0;
    print_begin();
    while (more-- > 0) {
        printf(" ");
        print_part();
    }
    for (uint32_t i = 0; i < count; i++) {
        printf(" ");
        switch (draw(16)) {
        case 0:
            print_hex("p", texts[draw(sizeof texts / sizeof *texts)]);
            break;
        case 1:
            switch (draw(10)) {
            case 0: case 1:
                print_hex("y", histories[draw(sizeof histories / sizeof *histories)]);
                break;
            case 2:
                printf("h%u", draw(3));
                break;
            case 3: case 4:
                printf("r%u,%u", draw(2) ? 80 : draw(40), draw(2) ? 24 : draw(6));
                break;
            case 5: case 6:
                print_part();
                break;
            default:
                print_begin();
            }
            break;
        case 2: case 3: case 4:
            printf("s");
            break;
        case 5:
            if (draw(3) == 0) {
                printf(draw(2) ? "k1,0,0,0" : "p68 k1,0,0,0 k1,0,0,0 s");
                break;
            } /* fall through */
        default:
            print_key();
        }
    }
    printf("\n");
}

/* A line with what it wrote. */
struct player {
    struct gelvanh_line line;
    bool is_shown;
    size_t written; /* bytes of output, and their FNV-1a */
    uint64_t hash;
};

static const char *const names[] = {"help", "history", "hi there"};
static const char names_in_lines[] = "help\nhistory\nhi there";

/* What the first name has behind the last word of a text. */
static const char *rest_of(const char *text, size_t length) {
    size_t word = length;
    while (word > 0 && text[word - 1] != ' ')
        word--;
    length -= word;
    for (size_t i = 0; length > 0 && i < sizeof names / sizeof *names; i++)
        if (strlen(names[i]) > length && !memcmp(names[i], text + word, length))
            return names[i] + length;
    return "";
}

static size_t from_hex(const char *hex, uint8_t *bytes) {
    size_t count = 0;
    unsigned byte;
    for (; sscanf(hex, "%2x", &byte) == 1; hex += 2)
        bytes[count++] = (uint8_t)byte;
    return count;
}

static size_t drain(struct player *player, uint8_t *into, size_t room) {
    size_t count = gelvanh_line_output(&player->line, into, room);
    for (size_t i = 0; i < count; i++)
        player->hash = (player->hash ^ into[i]) * 1099511628211u;
    player->written += count;
    return count;
}

/* Does what a word says, and returns the answer. */
static uint32_t act(struct player *player, const char *word) {
    uint8_t bytes[256], text[4096];
    struct gelvanh_event event = {GELVANH_KEY, 0, 0, 0, 0, 0, 0, 0, 0};
    unsigned a, b, c, d, columns, rows;
    uint32_t answer;
    size_t length;
    switch (*word) {
    case 'b':
        player->is_shown = false;
        sscanf(word, "b%u,%u", &columns, &rows);
        return gelvanh_line_begin(&player->line, bytes, from_hex(strchr(word, ':') + 1, bytes), (uint16_t)columns, (uint16_t)rows);
    case 'q':
        a = (unsigned)(word[1] - '0');
        if (a < KNOWN)
            player->is_shown = false;
        return gelvanh_line_prompt(&player->line, bytes, from_hex(word + 3, bytes), &styles[a]);
    case 'r':
        player->is_shown = false;
        sscanf(word, "r%u,%u", &columns, &rows);
        return gelvanh_line_resize(&player->line, (uint16_t)columns, (uint16_t)rows);
    case 'h':
        player->is_shown = false;
        return gelvanh_line_hide(&player->line, (uint32_t)(word[1] - '0'));
    case 'y':
        return gelvanh_line_load_history(&player->line, bytes, from_hex(word + 1, bytes));
    case 'p':
        player->is_shown = false;
        return gelvanh_line_paste(&player->line, bytes, from_hex(word + 1, bytes));
    case 's':
        if (player->is_shown)
            return GELVANH_LINE_GOES_ON;
        length = gelvanh_line_text(&player->line, text, sizeof text);
        answer = gelvanh_line_hint(&player->line, (const uint8_t *)rest_of((char *)text, length), strlen(rest_of((char *)text, length)));
        if (answer == GELVANH_LINE_GOES_ON)
            answer = gelvanh_line_show(&player->line);
        player->is_shown = answer == GELVANH_LINE_GOES_ON;
        return answer;
    default:
        player->is_shown = false;
        sscanf(word, "k%u,%u,%u,%u", &a, &b, &c, &d);
        event.code = (uint16_t)a, event.value = b, event.modifiers = (uint8_t)c, event.press = (uint8_t)d;
        if (event.code == GELVANH_TAB && c == 0 && d != GELVANH_RELEASE)
            return gelvanh_line_complete(&player->line, (const uint8_t *)names_in_lines, sizeof names_in_lines - 1);
        return gelvanh_line_event(&player->line, &event);
    }
}

static const struct gelvanh_line_limits limits = {60, 4, 20, 3, true, false};

static struct player begun(void) {
    struct player player = {{NULL}, false, 0, 14695981039346656037u};
    if (gelvanh_line_new(&player.line, &limits) != GELVANH_LINE_GOES_ON)
        fail("there is no memory", "");
    return player;
}

static void print_bytes(const uint8_t *bytes, size_t length) {
    for (size_t i = 0; i < length; i++)
        printf("%02x", bytes[i]);
}

static void run(char *script) {
    struct player player = begun();
    uint8_t bytes[65536];
    size_t length = 0;
    char *place = NULL;
    for (char *word = strtok_r(script, " \n", &place); word; word = strtok_r(NULL, " \n", &place)) {
        uint32_t answer = act(&player, word);
        printf("%u", answer);
        if (answer == GELVANH_LINE_ACCEPTED) {
            printf("[");
            print_bytes(bytes, gelvanh_line_accepted(&player.line, bytes, sizeof bytes));
            printf("]");
        }
        if (*word == 's')
            while (drain(&player, bytes, 7) > 0) {
            }
    }
    printf(" ");
    print_bytes(bytes, gelvanh_line_text(&player.line, bytes, sizeof bytes));
    printf(" %zu ", gelvanh_line_cursor(&player.line));
    if (gelvanh_line_history(&player.line, bytes, sizeof bytes, &length) != GELVANH_LINE_GOES_ON)
        fail("there is no memory", script);
    print_bytes(bytes, length);
    while (drain(&player, bytes, sizeof bytes) > 0) {
    }
    printf(" %zu %016llx\n", player.written, (unsigned long long)player.hash);
    gelvanh_line_free(player.line);
}

/* All that a caller sees of a line, without its output. */
struct seen {
    uint8_t text[64], accepted[64], history[512];
    size_t length, cursor, accepted_length, history_length;
};

static struct seen seen_of(struct player *player) {
    struct seen seen;
    long kept = left;
    left = -1;
    memset(&seen, 0, sizeof seen);
    seen.length = gelvanh_line_text(&player->line, seen.text, sizeof seen.text);
    seen.cursor = gelvanh_line_cursor(&player->line);
    seen.accepted_length = gelvanh_line_accepted(&player->line, seen.accepted, sizeof seen.accepted);
    if (gelvanh_line_history(&player->line, seen.history, sizeof seen.history, &seen.history_length) != GELVANH_LINE_GOES_ON)
        fail("a history is refused", "");
    left = kept;
    return seen;
}

/* Tests that both have the same, and writes it out now and then. */
static void same(struct player *one, struct player *other, const char *word, bool with_output) {
    struct seen seen = seen_of(one), others = seen_of(other);
    static uint8_t bytes[65536], more[65536];
    if (memcmp(&seen, &others, sizeof seen))
        fail("another line", word);
    if (with_output) {
        size_t length = drain(one, bytes, sizeof bytes);
        if (drain(other, more, sizeof more) != length || memcmp(bytes, more, length))
            fail("another output", word);
    }
}

/* Plays a script with one allocation refused, beside a player that is refused none, and returns whether one was. */
static bool play_refused(const char *script, long before) {
    static char words[65536], begin[256];
    struct player player, other = begun();
    char *place = NULL;
    uint32_t answer;
    unsigned at = 0;
    strcpy(words, script);
    was_refused = false;
    left = before;
    answer = gelvanh_line_new(&player.line, &limits);
    if (answer == GELVANH_LINE_NO_MEMORY)
        answer = gelvanh_line_new(&player.line, &limits);
    if (answer != GELVANH_LINE_GOES_ON)
        fail("there is no memory", "");
    player.is_shown = false;
    for (char *word = strtok_r(words, " \n", &place); word; word = strtok_r(NULL, " \n", &place)) {
        if (*word == 'b')
            strcpy(begin, word);
        answer = act(&player, word);
        if (answer == GELVANH_LINE_NO_MEMORY) {
            if (!was_refused || left >= 0)
                fail("memory is refused by itself", word);
            same(&player, &other, word, true);
            /* After a frame that was refused the whole row is drawn. */
            if (*word == 's' && (act(&player, begin) || act(&other, begin)))
                fail("a row is refused", begin);
            answer = act(&player, word);
        }
        long kept = left;
        left = -1;
        if (act(&other, word) != answer)
            fail("another answer", word);
        left = kept;
        same(&player, &other, word, at++ % 3 == 2);
    }
    left = -1;
    same(&player, &other, script, true);
    gelvanh_line_free(player.line);
    gelvanh_line_free(other.line);
    return was_refused;
}

int main(int argc, char **argv) {
    static char script[65536];
    int count = argc > 2 ? atoi(argv[2]) : 0;
    long refusals = 0;
    if (argc > 1 && !strcmp(argv[1], "scripts"))
        while (count-- > 0)
            print_script();
    else if (argc > 1 && !strcmp(argv[1], "run"))
        while (fgets(script, sizeof script, stdin))
            run(script);
    else if (argc > 1 && !strcmp(argv[1], "refuse")) {
        while (fgets(script, sizeof script, stdin)) {
            long before = 0;
            while (play_refused(script, before))
                before++;
            refusals += before;
        }
        printf("%ld allocations refused\n", refusals);
        return refusals == 0;
    } else
        return 2;
    return 0;
}
