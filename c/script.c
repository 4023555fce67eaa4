/*
 * Runs a script (docs/SCRIPTS.md) on the table and writes the history text, as `nio script` does: the calls on
 * selectors, channels, keys and interrupts. A script with a word for pipes or groups ends with status 2.
 */
#define _GNU_SOURCE
#include "nio.h"

#include <inttypes.h>
#include <stdio.h>
#include <stdlib.h>
#include <string.h>

enum { CALLERS = 64, SELECTORS = 16, CHANNELS = 1024, KEYS = 1024, WORDS = 2048 };

static nio_caller callers[CALLERS];

static const char *const whys[] = {"ready", "now", "woken", "closed", "interrupted", "elapsed"};

/* The reply that a refusal is. */
static const char *refusal(nio_status status)
{
    switch (status) {
    case NIO_NO_SUCH_SELECTOR: return "no-selector";
    case NIO_NO_SUCH_CHANNEL: return "no-channel";
    case NIO_NO_SUCH_KEY: return "no-key";
    case NIO_NO_SUCH_CALLER: return "no-caller";
    case NIO_BUSY: return "busy";
    case NIO_ILLEGAL_ARGUMENT: return "negative-timeout";
    case NIO_ILLEGAL_OPS: return "illegal-ops";
    case NIO_CLOSED_CHANNEL: return "closed-channel";
    case NIO_ILLEGAL_BLOCKING_MODE: return "illegal-blocking-mode";
    case NIO_CANCELLED_KEY: return "cancelled-key";
    case NIO_CLOSED_SELECTOR: return "closed-selector";
    case NIO_SELECTOR_FULL: return "full";
    case NIO_NOT_SELECTING: return "not-selecting";
    case NIO_NOT_CLOSING: return "not-closing";
    default: fprintf(stderr, "script: status %u\n", (unsigned)status); exit(1);
    }
}

static _Noreturn void unknown(const char *word)
{
    fprintf(stderr, "script: %s is not for this program\n", word);
    exit(2);
}

static uint32_t number_in(const char *name)
{
    return (uint32_t)strtoul(name + 1, NULL, 10);
}

static uint32_t serial_in(const char *name)
{
    const char *dot = strchr(name, '.');
    return dot ? (uint32_t)strtoul(dot + 1, NULL, 10) : 0;
}

static nio_channel channel_in(const char *name)
{
    return (nio_channel){.number = number_in(name), .serial = serial_in(name)};
}

static nio_key key_in(const char *selector, const char *name)
{
    return (nio_key){.selector = number_in(selector), .index = number_in(name), .serial = serial_in(name)};
}

static void print_name(char letter, uint32_t number, uint32_t serial)
{
    printf("%c%" PRIu32, letter, number);
    if (serial != 0)
        printf(".%" PRIu32, serial);
}

/* Prints the refusal, where it is one. */
static bool is_done(nio_status status)
{
    if (status != NIO_DONE)
        fputs(refusal(status), stdout);
    return status == NIO_DONE;
}

static void print_ok(nio_status status)
{
    if (is_done(status))
        fputs("ok", stdout);
}

static void print_bool(nio_status status, bool answer)
{
    if (is_done(status))
        fputs(answer ? "yes" : "no", stdout);
}

static void print_number(nio_status status, uint64_t answer)
{
    if (is_done(status))
        printf("%" PRIu64, answer);
}

static bool has_channel(nio_caller *caller, const char *channel)
{
    return is_done(nio_find_channel(caller, channel_in(channel)));
}

static bool has_selector(nio_caller *caller, const char *selector)
{
    return is_done(nio_find_selector(caller, number_in(selector)));
}

static bool has_key(nio_caller *caller, const char *selector, const char *key)
{
    return has_selector(caller, selector) && is_done(nio_find_key(caller, key_in(selector, key)));
}

static bool is_word(char **words, const char *word)
{
    return strcmp(words[0], word) == 0;
}

/* ---- channels ---- */

static void open_channel(nio_caller *caller, const char *kind)
{
    static const char *const kinds[] = {"stream", "listener", "source", "sink", "datagram"};
    nio_channel channel;
    uint32_t number = 0;
    while (number < 5 && strcmp(kinds[number], kind) != 0)
        number++;
    nio_status status = nio_open_channel(caller, number, &channel);
    if (status == NIO_SPENT)
        fputs("channels-spent", stdout);
    else if (is_done(status))
        print_name('c', channel.number, channel.serial);
}

static void key_for(nio_caller *caller, char **words)
{
    nio_key key;
    if (!has_channel(caller, words[1]) || !has_selector(caller, words[2]))
        return;
    if (nio_key_for(caller, channel_in(words[1]), number_in(words[2]), &key) == NIO_DONE)
        print_name('k', key.index, key.serial);
    else
        fputs("none", stdout);
}

static void register_channel(nio_caller *caller, char **words)
{
    nio_key key;
    nio_ops ops = (nio_ops)strtoul(words[3], NULL, 10);
    uint64_t attachment = words[4] ? strtoull(words[4], NULL, 10) : 0;
    if (is_done(nio_register(caller, number_in(words[1]), channel_in(words[2]), ops, attachment, &key)))
        print_name('k', key.index, key.serial);
}

static bool say_channel(nio_caller *caller, char **words)
{
    nio_channel channel = words[1] ? channel_in(words[1]) : (nio_channel){0};
    nio_status status;
    bool answer = false;
    if (is_word(words, "channel"))
        open_channel(caller, words[1]);
    else if (is_word(words, "key-for"))
        key_for(caller, words);
    else if (is_word(words, "register"))
        register_channel(caller, words);
    else if (is_word(words, "blocking"))
        print_ok(nio_set_blocking(caller, channel, strcmp(words[2], "on") == 0));
    else if (is_word(words, "is-blocking") || is_word(words, "is-open") || is_word(words, "is-registered")) {
        if (!has_channel(caller, words[1]))
            return true;
        status = is_word(words, "is-blocking") ? nio_is_blocking(caller, channel, &answer)
                 : is_word(words, "is-open")   ? nio_is_open(caller, channel, &answer)
                                               : nio_is_registered(caller, channel, &answer);
        print_bool(status, answer);
    } else if (is_word(words, "closec")) {
        if (has_channel(caller, words[1]) && is_done(nio_close_channel(caller, channel, &answer)))
            fputs(answer ? "ok" : "already", stdout);
    } else
        return false;
    return true;
}

/* ---- keys ---- */

static bool say_key(nio_caller *caller, char **words)
{
    static const char *const known[] = {"valid",    "interest", "ready",  "iset",      "ior", "iand",
                                        "unselect", "cancel",   "attach", "attachment"};
    size_t which = 0;
    while (which < sizeof known / sizeof *known && !is_word(words, known[which]))
        which++;
    if (which == sizeof known / sizeof *known)
        return false;
    if (!has_key(caller, words[1], words[2]))
        return true;
    nio_key key = key_in(words[1], words[2]);
    uint64_t given = words[3] ? strtoull(words[3], NULL, 10) : 0;
    nio_ops ops = 0;
    uint64_t attachment = 0;
    bool answer = false;
    nio_status status;
    switch (which) {
    case 0: status = nio_is_valid(caller, key, &answer); print_bool(status, answer); break;
    case 1: status = nio_interest(caller, key, &ops); print_number(status, ops); break;
    case 2: status = nio_ready(caller, key, &ops); print_number(status, ops); break;
    case 3: print_ok(nio_set_interest(caller, key, (nio_ops)given)); break;
    case 4: status = nio_interest_or(caller, key, (nio_ops)given, &ops); print_number(status, ops); break;
    case 5: status = nio_interest_and(caller, key, (nio_ops)given, &ops); print_number(status, ops); break;
    case 6: status = nio_unselect(caller, key, &answer); print_bool(status, answer); break;
    case 7: print_ok(nio_cancel(caller, key)); break;
    case 8: status = nio_attach(caller, key, given, &attachment); print_number(status, attachment); break;
    default: status = nio_attachment(caller, key, &attachment); print_number(status, attachment); break;
    }
    return true;
}

/* ---- selectors and selections ---- */

static void list_keys(nio_caller *caller, char **words)
{
    static nio_key keys[KEYS];
    size_t count;
    uint32_t selector = number_in(words[1]);
    nio_status status = is_word(words, "keys") ? nio_keys(caller, selector, keys, KEYS, &count)
                                               : nio_selected_keys(caller, selector, keys, KEYS, &count);
    if (!is_done(status))
        return;
    if (count == 0)
        fputs("none", stdout);
    for (size_t i = 0; i < count; i++) {
        fputs(i == 0 ? "" : " ", stdout);
        print_name('k', keys[i].index, keys[i].serial);
    }
}

static void begin(nio_caller *caller, char **words)
{
    static nio_looked looked[KEYS];
    size_t count;
    uint32_t selector = number_in(words[1]);
    int64_t ms = strcmp(words[2], "for") == 0 ? strtoll(words[3], NULL, 10) : 0;
    if (!has_selector(caller, words[1]))
        return;
    if (!is_done(strcmp(words[2], "now") == 0 ? nio_begin_now(caller, selector) : nio_begin(caller, selector, ms)))
        return;
    if (!is_done(nio_asked(caller, selector, looked, KEYS, &count)))
        return;
    fputs(count == 0 ? "looked none" : "looked", stdout);
    for (size_t i = 0; i < count; i++) {
        putchar(' ');
        print_name('k', looked[i].index, looked[i].serial);
        printf(":%u", looked[i].interest);
    }
}

/* Whether the caller's selection in progress asks for this key; it asks for none that was never made. An index alone
 * could name a later key there. */
static bool is_asked(nio_caller *caller, nio_key key)
{
    static nio_looked looked[KEYS];
    size_t count;
    if (nio_asked(caller, key.selector, looked, KEYS, &count) != NIO_DONE)
        return false;
    for (size_t i = 0; i < count; i++)
        if (looked[i].index == key.index && looked[i].serial == key.serial)
            return true;
    return false;
}

static void told(nio_caller *caller, char **words)
{
    static nio_pair pairs[KEYS];
    size_t count = 0;
    bool elapsed = false;
    nio_selected selected;
    if (!has_selector(caller, words[1]))
        return;
    for (char **word = words + 2; *word; word++) {
        nio_key key = key_in(words[1], *word);
        if (strcmp(*word, "elapsed") == 0)
            elapsed = true;
        else if (is_asked(caller, key))
            pairs[count++] = (nio_pair){.index = key.index, .ready = (nio_ops)atoi(strchr(*word, ':') + 1)};
    }
    nio_status status = nio_told(caller, number_in(words[1]), pairs, count, elapsed, false, &selected);
    if (status == NIO_AGAIN)
        fputs("again", stdout);
    else if (is_done(status))
        printf("selected %" PRIu32 " %s", selected.count, whys[selected.why]);
}

static bool say_selector(nio_caller *caller, char **words)
{
    uint32_t selector = words[1] ? number_in(words[1]) : 0;
    bool answer = false;
    nio_status status;
    if (is_word(words, "selector")) {
        status = nio_open_selector(caller, &selector);
        if (status == NIO_SPENT)
            fputs("selectors-spent", stdout);
        else if (is_done(status))
            print_name('s', selector, 0);
    } else if (is_word(words, "begin"))
        begin(caller, words);
    else if (is_word(words, "told"))
        told(caller, words);
    else if (is_word(words, "failed")) {
        if (has_selector(caller, words[1]) && is_done(nio_leave(caller, selector)))
            fputs("left", stdout);
    } else if (is_word(words, "wakeup"))
        print_ok(nio_wakeup(caller, selector, &answer));
    else if (is_word(words, "close")) {
        if (is_done(nio_shut(caller, selector, &answer)))
            fputs(answer ? "closing" : "already", stdout);
    } else if (is_word(words, "close-end")) {
        if (has_selector(caller, words[1]) && is_done(nio_try_finish(caller, selector)))
            fputs("closed", stdout);
    } else if (is_word(words, "keys") || is_word(words, "selected"))
        list_keys(caller, words);
    else if (is_word(words, "interrupt"))
        print_ok(nio_interrupt(caller, number_in(words[1])));
    else if (is_word(words, "interrupted")) {
        status = nio_interrupted(caller, &answer);
        print_bool(status, answer);
    } else
        return false;
    return true;
}

/* The caller with this number, which caller 0 gives away where that wasn't done yet. */
static nio_caller *caller_of(uint32_t number)
{
    nio_caller *caller = &callers[number];
    if (!caller->full && nio_split(&callers[0], number, caller) != NIO_DONE)
        exit(1);
    return caller;
}

int main(void)
{
    nio_limits limits = {.callers = CALLERS, .selectors = SELECTORS, .channels = CHANNELS, .keys = KEYS};
    char line[4200];
    unsigned count = 0;
    if (nio_make(&limits, &callers[0]) != NIO_DONE)
        return 1;
    while (fgets(line, sizeof line, stdin)) {
        char *words[WORDS + 1] = {0};
        size_t held = 0;
        line[strcspn(line, "\n")] = 0;
        if (line[0] == 0 || line[0] == '#')
            continue;
        printf("%u %s -> ", ++count, line);
        for (char *word = strtok(line, " "); word && held < WORDS; word = strtok(NULL, " "))
            words[held++] = word;
        nio_caller *caller = caller_of(number_in(words[0]));
        if (!say_channel(caller, words + 1) && !say_key(caller, words + 1) && !say_selector(caller, words + 1))
            unknown(words[1]);
        putchar('\n');
    }
    for (size_t i = 0; i < CALLERS; i++)
        if (callers[i].full)
            nio_free(&callers[i]);
    return 0;
}
