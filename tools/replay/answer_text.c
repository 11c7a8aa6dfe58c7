#include "answer_text.h"

#include <stdio.h>

#include "../words/phrases.h"
#include "../words/requests.h"
#include "../words/text.h"

static void print_number(call_field field, uint32_t number)
{
    naming *names = field_forms[field].names;
    const char *name = names == NULL ? NULL : name_of(names, number);

    if (name != NULL)
        printf(" %s", name);
    else
        printf(" %lu", (unsigned long)number);
}

/* In parentheses, what the words don't say: request and reply space. */
static void print_meaning(const call *made)
{
    int is_setup = call_forms[made->kind].bytes == BYTES_SETUP
                   && made->bytes_len == GRIMHOLDI_SETUP_LENGTH;
    int is_other_room = call_forms[made->kind].has_room
                        && made->room != GRIMHOLDI_REPLY_LENGTH;
    request read = {0};

    if (is_setup)
        read = read_request(made->bytes);
    if (read.form == NULL && !is_other_room)
        return;
    printf(" (");
    if (read.form != NULL)
        print_request(&read);
    if (is_other_room) {
        printf("%s", read.form != NULL ? ", " : "");
        print_count("reply space", made->room);
    }
    printf(")");
}

void print_call_words(const call *made)
{
    const call_form *form = &call_forms[made->kind];
    unsigned i;

    printf("%s", form->name);
    for (i = 0; i < form->field_count; i++)
        print_number(form->fields[i], made->numbers[form->fields[i]]);
    if (form->bytes == BYTES_SETUP && made->bytes_len == 0)
        printf(" ''");
    print_hex(made->bytes, made->bytes_len);
    print_meaning(made);
}

/* "no bytes", "1 byte 02" */
static void print_reply(const uint8_t *reply, unsigned length)
{
    if (length == 0)
        printf("no bytes");
    else
        printf(BYTE_COUNT, BYTE_COUNT_OF(length));
    print_hex(reply, length);
}

void print_answer(const call *made, const grimholdi_answer *answer,
                  const uint8_t *reply)
{
    printf("%s", grimholdi_answer_name(answer->number));
    if (answer->number == GRIMHOLDI_ANSWER_HANDSHAKE)
        printf(" %s", grimholdi_result_name(answer->pid));
    if (answer->number != GRIMHOLDI_ANSWER_DATA)
        return;
    if (made->kind == CALL_COMPLETE_SPLIT)
        printf(" %s", grimholdi_result_name(answer->pid));
    if (made->kind == CALL_LAUNCH) {
        printf(" ");
        print_launched(answer);
    }
    printf(", ");
    print_reply(reply, answer->length);
}
