/*
 * Says why a hub answers a call as it does: reads an area from a file, takes
 * one call from the command line or from a record, and prints state, call,
 * answer and reason.  docs/WHY.md has the words and examples.
 */

#include <errno.h>
#include <stdio.h>
#include <string.h>

#include "../words/call_words.h"
#include "../words/complain.h"
#include "../words/files.h"
#include "../words/record.h"
#include "../words/text.h"
#include "area_fault.h"
#include "area_view.h"
#include "call_make.h"
#include "call_text.h"
#include "reason_text.h"
#include "state_text.h"

enum { EXPLAINED, BAD_FILE, BAD_WORDS }; /* exit statuses */

typedef struct {
    int raw;
    int state_only;
    int help;
    int has_room;
    size_t room;
    const char *record; /* a file, or NULL: the call is in words */
} options;

const char program_name[] = "why";

static void print_help(void)
{
    char form[FORM_LENGTH];
    unsigned i;

    printf("why [OPTIONS] FILE CALL\n"
           "why [OPTIONS] --record RECORD FILE\n"
           "  Says why the hub whose area is in FILE (-: standard input)\n"
           "  answers the call as it does.  Files are only read.\n\n"
           "  --room N         reply space of the call, 0 to %d bytes;\n"
           "                   default %d\n"
           "  --record RECORD  the call is the record in the file RECORD\n"
           "                   (-: standard input)\n"
           "  --raw            one line of numbers: answer, kind, value and\n"
           "                   seven bytes of change bits\n"
           "  --state          the state alone, without a call\n"
           "  --help           this text\n\n"
           "Calls:\n", CALL_ROOM_MAX, GRIMHOLDI_REPLY_LENGTH);
    for (i = 0; i < CALLS; i++) {
        call_form_words((call_kind)i, form);
        printf("  %s\n", form);
    }
    printf("\n"
           "Exit status: 0 explained, 1 the area or the record is not read\n"
           "or is refused, 2 bad words.\n");
}

/* The room's number; 0 and a complaint where it is bad. */
static int read_room(const char *word, options *read)
{
    char fault[FAULT_LENGTH];
    uint32_t room;

    if (word == NULL)
        return complain(0, "--room lacks its number");
    if (!read_number(word, "reply space", &room, fault))
        return complain(0, "--room: %s", fault);
    if (room > CALL_ROOM_MAX)
        return complain(0, "--room: %s is above %d", word, CALL_ROOM_MAX);
    read->has_room = 1;
    read->room = room;
    return 1;
}

static int options_agree(const options *of)
{
    if (of->raw && of->state_only)
        return complain(0, "--raw and --state exclude each other");
    if (of->record != NULL && of->state_only)
        return complain(0, "--record and --state exclude each other");
    if (of->record != NULL && of->has_room)
        return complain(0, "--record and --room exclude each other: a record "
                        "has its own reply space");
    return 1;
}

/* Moves past the options; 0 and a complaint where one is bad. */
static int read_options(char ***words, options *read)
{
    char **word = *words;

    for (; *word != NULL && word[0][0] == '-' && word[0][1] != '\0'; word++)
        if (strcmp(*word, "--raw") == 0)
            read->raw = 1;
        else if (strcmp(*word, "--state") == 0)
            read->state_only = 1;
        else if (strcmp(*word, "--help") == 0)
            read->help = 1;
        else if (strcmp(*word, "--record") == 0) {
            read->record = *++word;
            if (read->record == NULL)
                return complain(0, "--record lacks its file");
        } else if (strcmp(*word, "--room") != 0)
            return complain(0, "'%s' is no option; options are --room N, "
                            "--record RECORD, --raw, --state, --help", *word);
        else if (!read_room(*++word, read))
            return 0;
    *words = word;
    return options_agree(read);
}

/* Reads a file whole, up to `most` bytes; 0 and a complaint. */
static int read_file(const char **name, uint8_t *bytes, size_t most,
                     size_t *length)
{
    FILE *file = open_input(name);
    int is_read;

    if (file == NULL)
        return 0;
    is_read = read_input(file, bytes, most, length)
              || complain(0, "%s: %s", *name, strerror(errno));
    close_input(file);
    return is_read;
}

/* Reads the area; 0 and a complaint where it can't be read or is too long. */
static int read_area(const char **name,
                     uint8_t area[GRIMHOLDI_AREA_LENGTH_MAX + 1],
                     size_t *length)
{
    if (!read_file(name, area, GRIMHOLDI_AREA_LENGTH_MAX + 1, length))
        return 0;
    if (*length > GRIMHOLDI_AREA_LENGTH_MAX)
        return complain(0, "%s: more than %d bytes; an area has 156 to %d",
                        *name, GRIMHOLDI_AREA_LENGTH_MAX,
                        GRIMHOLDI_AREA_LENGTH_MAX);
    return 1;
}

/* The call of a file that holds one record; 0 and a complaint. */
static int read_record_file(const char *name,
                            uint8_t bytes[RECORD_LENGTH_MAX + 1], call *asked)
{
    char fault[FAULT_LENGTH];
    size_t length, used;

    if (!read_file(&name, bytes, RECORD_LENGTH_MAX + 1, &length))
        return 0;
    used = read_record(bytes, length, asked, fault);
    if (used == 0)
        return complain(0, "%s: %s", name, fault);
    if (used < length)
        return complain(0, "%s: tag %u, %s, has " BYTE_COUNT ", and more "
                        "follow", name, bytes[0],
                        call_forms[asked->kind].name, BYTE_COUNT_OF(used));
    return 1;
}

/* The library says whether the area is taken; 0 and a complaint if not. */
static int area_is_taken(const char *name, const uint8_t *area, size_t length)
{
    char fault[FAULT_LENGTH];

    if (grimholdi_why_tick(area, length).kind != GRIMHOLDI_WHY_NUMBER)
        return 1;
    if (!area_fault(area, length, fault))
        fault_says(fault, "the library refuses the area");
    return complain(0, "%s: %s", name, fault);
}

static void print_raw(const grimholdi_answer *answer,
                      const grimholdi_reason *reason)
{
    unsigned i;

    printf("%u %u %u", answer->number, reason->kind, reason->value);
    for (i = 0; i < GRIMHOLDI_PORTS_MAX; i++)
        printf(" %u", reason->changes[i]);
    printf("\n");
}

/* The call is made on a copy, for its answer. */
static void explain(const uint8_t *area, size_t length, const call *call_of,
                    int raw)
{
    uint8_t copy[GRIMHOLDI_AREA_LENGTH_MAX];
    uint8_t reply[CALL_ROOM_MAX];
    area_view view = view_area(area);
    grimholdi_reason reason = call_explain(call_of, area, length);
    grimholdi_answer answer;

    memcpy(copy, area, length);
    answer = call_make(call_of, copy, length, reply);
    if (raw) {
        print_raw(&answer, &reason);
        return;
    }
    print_state(&view);
    print_call(call_of);
    print_reply(reply, answer.length);
    print_reason(&view, call_of, &answer, &reason);
}

/* The call of the words or of the record; EXPLAINED, or what is wrong. */
static int read_asked(char **words, size_t count, const options *of,
                      uint8_t bytes[RECORD_LENGTH_MAX + 1], call *asked)
{
    char fault[FAULT_LENGTH];

    if (of->state_only || of->record != NULL) {
        if (count > 0)
            return complain(BAD_WORDS, "'%s' is too much; %s", words[0],
                            of->state_only ? "--state takes no call"
                                           : "--record gives the call");
        return of->state_only || read_record_file(of->record, bytes, asked)
               ? EXPLAINED : BAD_FILE;
    }
    if (!read_call(words, count, bytes, asked, fault))
        return complain(BAD_WORDS, "%s", fault);
    asked->room = of->room;
    return EXPLAINED;
}

/* `words` is the file and the call. */
static int run(char **words, const options *of)
{
    static uint8_t bytes[RECORD_LENGTH_MAX + 1];
    uint8_t area[GRIMHOLDI_AREA_LENGTH_MAX + 1];
    size_t length, count = 0;
    const char *name = words[0];
    area_view view;
    call asked;
    int status;

    if (name == NULL)
        return complain(BAD_WORDS, "no file is given; why --help says more");
    if (of->record != NULL && is_standard_input(of->record)
        && is_standard_input(name))
        return complain(BAD_WORDS, "RECORD and FILE can't both be standard "
                        "input");
    while (words[1 + count] != NULL)
        count++;
    status = read_asked(words + 1, count, of, bytes, &asked);
    if (status != EXPLAINED)
        return status;
    if (!read_area(&name, area, &length)
        || !area_is_taken(name, area, length))
        return BAD_FILE;
    if (of->state_only) {
        view = view_area(area);
        print_state(&view);
    } else {
        explain(area, length, &asked, of->raw);
    }
    return EXPLAINED;
}

int main(int argc, char **argv)
{
    options of = {0, 0, 0, 0, GRIMHOLDI_REPLY_LENGTH, NULL};
    char **words = argv + (argc > 0);
    int status = EXPLAINED;

    if (!read_options(&words, &of))
        return BAD_WORDS;
    if (of.help)
        print_help();
    else
        status = run(words, &of);
    return output_is_written() ? status : BAD_FILE;
}
