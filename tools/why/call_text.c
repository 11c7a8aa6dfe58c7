#include "call_text.h"

#include <stdio.h>

#include "../words/phrases.h"
#include "../words/requests.h"

enum { LINE_BYTES = 16 };

static void print_number(call_field field, uint32_t number)
{
    const field_form *form = &field_forms[field];
    const char *name = form->names == NULL ? NULL
                                           : name_of(form->names, number);

    if (name != NULL)
        printf(", %s %s", form->name, name);
    else
        printf(", %s %lu", form->name, (unsigned long)number);
}

/* As many as stand in a line. */
static size_t first_of(size_t length)
{
    return length < LINE_BYTES ? length : LINE_BYTES;
}

/* The first bytes, and .. for more. */
static void print_bytes(const char *what, const uint8_t *bytes, size_t length)
{
    printf(", ");
    print_count(what, length);
    print_hex(bytes, first_of(length));
    printf("%s", length > LINE_BYTES ? " .." : "");
}

static void print_setup(const uint8_t *setup, size_t length)
{
    request read;

    print_bytes("setup", setup, length);
    if (length != GRIMHOLDI_SETUP_LENGTH)
        return;
    read = read_request(setup);
    if (read.form != NULL) {
        printf(": ");
        print_request(&read);
    }
}

void print_call(const call *call_of)
{
    const call_form *form = &call_forms[call_of->kind];
    unsigned i;

    printf("call: %s", form->name);
    for (i = 0; i < form->field_count; i++)
        print_number(form->fields[i], call_of->numbers[form->fields[i]]);
    if (form->has_room) {
        printf(", ");
        print_count("reply space", call_of->room);
    }
    if (form->bytes == BYTES_PAYLOAD)
        print_bytes("payload", call_of->bytes, call_of->bytes_len);
    if (form->bytes == BYTES_SETUP)
        print_setup(call_of->bytes, call_of->bytes_len);
    printf("\n");
}

void print_reply(const uint8_t *bytes, size_t length)
{
    size_t i;

    for (i = 0; i < length; i += LINE_BYTES) {
        printf("reply:");
        print_hex(bytes + i, first_of(length - i));
        printf("\n");
    }
}
