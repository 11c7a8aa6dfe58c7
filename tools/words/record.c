#include "record.h"

#include <string.h>

#include "little_endian.h"
#include "text.h"

enum { /* bytes of a tag, a number and a count */
    TAG_LENGTH = 1,
    NUMBER_LENGTH = 4,
    COUNT_LENGTH = 2
};

static int read_tag(uint8_t tag, call_kind *kind)
{
    unsigned i;

    for (i = 0; i < CALLS; i++)
        if (call_forms[i].tag == tag) {
            *kind = (call_kind)i;
            return 1;
        }
    return 0;
}

/* What stands before the setup or payload bytes. */
static size_t fixed_length(const call_form *form)
{
    return TAG_LENGTH
           + NUMBER_LENGTH * (form->field_count + (form->has_room != 0))
           + (form->bytes == BYTES_NONE ? 0 : COUNT_LENGTH);
}

static void read_numbers(const uint8_t *bytes, const call_form *form,
                         call *read)
{
    unsigned i;

    for (i = 0; i < form->field_count; i++) {
        read->numbers[form->fields[i]] = double_word_at(bytes);
        bytes += NUMBER_LENGTH;
    }
    if (form->has_room) {
        read->room = double_word_at(bytes);
        bytes += NUMBER_LENGTH;
    }
    if (form->bytes != BYTES_NONE) {
        read->bytes_len = word_at(bytes);
        read->bytes = bytes + COUNT_LENGTH;
    }
}

size_t read_record(const uint8_t *bytes, size_t length, call *read,
                   char fault[FAULT_LENGTH])
{
    const call_form *form;
    size_t fixed;

    memset(read, 0, sizeof *read);
    if (length == 0)
        return !fault_says(fault, "no bytes; a record begins with its tag");
    if (!read_tag(bytes[0], &read->kind))
        return !fault_says(fault, "tag %u is no call; tags are %u to %u",
                           bytes[0], call_forms[0].tag,
                           call_forms[CALLS - 1].tag);
    form = &call_forms[read->kind];
    fixed = fixed_length(form);
    if (length < fixed)
        return !fault_says(fault, "tag %u, %s, ends inside its numbers: "
                           BYTE_COUNT " of %u", form->tag, form->name,
                           BYTE_COUNT_OF(length), (unsigned)fixed);
    read_numbers(bytes + TAG_LENGTH, form, read);
    if (length - fixed < read->bytes_len)
        return !fault_says(fault, "tag %u, %s, has %u of its %u %s bytes",
                           form->tag, form->name, (unsigned)(length - fixed),
                           (unsigned)read->bytes_len,
                           form->bytes == BYTES_SETUP ? "setup" : "payload");
    return fixed + read->bytes_len;
}
