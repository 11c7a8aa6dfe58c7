#include "log.h"

#include "calls.h"
#include "grimholdi_names.h"

#include <stdio.h>
#include <string.h>

unsigned now;

static const char *title = "";
static unsigned unexpected;

/* Outcomes. */

outcome answered(uint8_t number)
{
    outcome of = {{0}, NULL};

    of.answer.number = number;
    return of;
}

outcome handshake(uint8_t result)
{
    outcome of = answered(GRIMHOLDI_ANSWER_HANDSHAKE);

    of.answer.pid = result;
    return of;
}

outcome data(uint8_t result, const uint8_t *bytes, size_t length)
{
    outcome of = answered(GRIMHOLDI_ANSWER_DATA);

    of.answer.pid = result;
    of.answer.length = (uint8_t)length;
    of.bytes = bytes;
    return of;
}

outcome got(grimholdi_answer answer)
{
    outcome of;

    of.answer = answer;
    of.bytes = reply;
    return of;
}

int same(outcome a, outcome b)
{
    return memcmp(&a.answer, &b.answer, sizeof a.answer) == 0
           && (a.answer.length == 0
               || memcmp(a.bytes, b.bytes, a.answer.length) == 0);
}

/* Answers in words. */

enum { SHOWN = 32 };

static void print_quoted(const uint8_t *bytes, size_t length, size_t most)
{
    size_t shown = length < most ? length : most;
    size_t i;

    while (shown > 0 && bytes[shown - 1] == ' ')
        shown--;
    printf("\"");
    for (i = 0; i < shown; i++)
        printf("%c", bytes[i] >= ' ' && bytes[i] <= '~' ? bytes[i] : '?');
    printf("%s\"", length > most ? " .." : "");
}

void print_text(const uint8_t *bytes, size_t length)
{
    print_quoted(bytes, length, SHOWN);
}

static void print_hex(const uint8_t *bytes, size_t length)
{
    size_t i;

    printf("%u =", (unsigned)length);
    for (i = 0; i < length; i++)
        printf(" %02x", bytes[i]);
}

/* The bytes of a reply to the host are numbers, those of devices text. */
static void print_in_words(outcome of, size_t most)
{
    const grimholdi_answer answer = of.answer;
    const int in = answer.direction == GRIMHOLDI_DIRECTION_IN;

    if (answer.number != GRIMHOLDI_ANSWER_DATA) {
        printf("%s%s%s", grimholdi_answer_name(answer.number),
               answer.pid != 0 ? " " : "",
               answer.pid != 0 ? grimholdi_result_name(answer.pid) : "");
    } else if (answer.transfer != 0) { /* launched */
        printf("B%c:%u:%03u:%u", in ? 'i' : 'o', answer.lane, answer.address,
               answer.endpoint);
        if (!in) {
            printf(" %u ", answer.length);
            print_quoted(of.bytes, answer.length, most);
        }
    } else if (answer.pid != 0) { /* a result */
        printf("%s %u ", grimholdi_result_name(answer.pid), answer.length);
        print_quoted(of.bytes, answer.length, most);
    } else
        print_hex(of.bytes, answer.length);
}

void print_outcome(outcome of)
{
    print_in_words(of, SHOWN);
}

/* A port's status in words. */

typedef struct {
    uint16_t bit;
    const char *word;
} status_word;

static const status_word status_words[] = {
    {GRIMHOLDI_STATUS_CONNECTION, "connected"},
    {GRIMHOLDI_STATUS_ENABLE, "enabled"},
    {GRIMHOLDI_STATUS_SUSPEND, "suspended"},
    {GRIMHOLDI_STATUS_OVER_CURRENT, "over-current"},
    {GRIMHOLDI_STATUS_RESET, "in reset"},
    {GRIMHOLDI_STATUS_POWER, "powered"},
    {GRIMHOLDI_STATUS_LOW_SPEED, "low speed"},
    {GRIMHOLDI_STATUS_HIGH_SPEED, "high speed"}
};

static void print_word(const char **before, const char *word)
{
    printf("%s%s", *before, word);
    *before = ", ";
}

static void print_status_words(unsigned status)
{
    const unsigned speed = GRIMHOLDI_STATUS_LOW_SPEED
                           | GRIMHOLDI_STATUS_HIGH_SPEED;
    const char *before = "";
    size_t i;

    for (i = 0; i < sizeof status_words / sizeof status_words[0]; i++)
        if (status & status_words[i].bit)
            print_word(&before, status_words[i].word);
    if ((status & GRIMHOLDI_STATUS_CONNECTION) && !(status & speed))
        print_word(&before, "full speed");
    if (!(status & GRIMHOLDI_STATUS_POWER))
        print_word(&before, "no power");
}

static void print_changes(unsigned changes)
{
    const char *before = "";
    unsigned bit;

    for (bit = 0; bit < 16; bit++)
        if (changes >> bit & 1)
            print_word(&before, grimholdi_change_name(1u << bit));
    if (changes == 0)
        printf("no change");
}

void print_status(uint8_t state, outcome of)
{
    if (of.answer.number != GRIMHOLDI_ANSWER_DATA || of.answer.length != 4) {
        print_outcome(of);
        return;
    }
    printf("%s: ", grimholdi_state_name(state));
    print_status_words(of.bytes[0] | (unsigned)of.bytes[1] << 8);
    printf("; ");
    print_changes(of.bytes[2] | (unsigned)of.bytes[3] << 8);
}

void print_bitmap(outcome of)
{
    const char *before = "changes at port ";
    unsigned bit;

    if (of.answer.number == GRIMHOLDI_ANSWER_NAK)
        printf("no change");
    else if (of.answer.number != GRIMHOLDI_ANSWER_DATA)
        print_outcome(of);
    else
        for (bit = 0; bit < 8; bit++)
            if (of.bytes[0] >> bit & 1) {
                printf("%s%u", before, bit);
                before = ", ";
            }
}

/* Lines. */

void print_title(const char *words)
{
    title = words;
    printf("\n== %s ==\n", words);
}

void say(const char *sentence)
{
    printf("     %s\n", sentence);
}

void print_unexpected(const char *what, const char *of)
{
    unexpected++;
    printf("%4u UNEXPECTED in \"%s\": %s%s%s: ", now, title, what,
           of[0] != '\0' ? " " : "", of);
}

void check(const char *call, const char *of, outcome due, outcome is)
{
    if (same(due, is))
        return;
    print_unexpected(call, of);
    printf("expected ");
    print_in_words(due, GRIMHOLDI_PAYLOAD_MAX);
    printf(", got ");
    print_in_words(is, GRIMHOLDI_PAYLOAD_MAX);
    printf("\n");
}

unsigned unexpected_lines(void)
{
    return unexpected;
}
