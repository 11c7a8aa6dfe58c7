#include "call_words.h"

#include <ctype.h>
#include <string.h>

#include "text.h"

enum { LIST_LENGTH = 160 };

static void add_item(char list[LIST_LENGTH], const char *item)
{
    if (list[0] != '\0')
        add_text(list, LIST_LENGTH, ", ");
    add_text(list, LIST_LENGTH, item);
}

void call_form_words(call_kind kind, char text[FORM_LENGTH])
{
    const call_form *form = &call_forms[kind];
    unsigned i;

    text[0] = '\0';
    add_text(text, FORM_LENGTH, form->name);
    for (i = 0; i < form->field_count; i++) {
        add_text(text, FORM_LENGTH, " ");
        add_text(text, FORM_LENGTH, field_forms[form->fields[i]].word);
    }
    if (form->bytes == BYTES_SETUP)
        add_text(text, FORM_LENGTH, " SETUP");
    if (form->bytes == BYTES_PAYLOAD)
        add_text(text, FORM_LENGTH, " [PAYLOAD]");
}

static int digit_value(char digit)
{
    static const char digits[] = "0123456789abcdef";
    const char *found = digit == '\0'
        ? NULL : strchr(digits, tolower((unsigned char)digit));

    return found == NULL ? -1 : (int)(found - digits);
}

/* Faults show at most this much of a word. */
#define WORD "'%.60s'"

int read_number(const char *word, const char *what, uint32_t *number,
                char fault[FAULT_LENGTH])
{
    int is_hex = word[0] == '0' && tolower((unsigned char)word[1]) == 'x';
    int base = is_hex ? 16 : 10;
    const char *digit = is_hex ? word + 2 : word;
    uint64_t value = 0;

    if (*digit == '\0')
        return !fault_says(fault, WORD " is no %s; numbers are decimal or "
                           "0x and hex digits", word, what);
    for (; *digit != '\0'; digit++) {
        int next = digit_value(*digit);

        if (next < 0 || next >= base)
            return !fault_says(fault, WORD " is no %s; numbers are decimal or "
                               "0x and hex digits", word, what);
        value = value * (uint64_t)base + (uint64_t)next;
        if (value > UINT32_MAX)
            return !fault_says(fault, WORD " is no %s; it is above 4294967295",
                               word, what);
    }
    *number = (uint32_t)value;
    return 1;
}

static int read_field(const field_form *form, const char *word,
                      uint32_t *number, char fault[FAULT_LENGTH])
{
    char list[LIST_LENGTH] = "";
    uint32_t i;

    if (form->names == NULL || isdigit((unsigned char)word[0]))
        return read_number(word, form->name, number, fault);
    if (number_of(form->names, word, number))
        return 1;
    for (i = 0; i <= NAMED_MAX; i++)
        if (name_of(form->names, i) != NULL)
            add_item(list, name_of(form->names, i));
    return !fault_says(fault, WORD " is no %s; it is a number or one of %s",
                       word, form->name, list);
}

/* The bytes of one word, behind those of the words before it. */
static int read_bytes(const char *word, uint8_t bytes[WORDS_BYTES_MAX],
                      size_t *length, char fault[FAULT_LENGTH])
{
    size_t i;

    for (i = 0; word[i] != '\0'; i++)
        if (digit_value(word[i]) < 0)
            return !fault_says(fault, WORD " is no byte; bytes are two hex "
                               "digits each", word);
    if (i % 2 != 0)
        return !fault_says(fault, WORD " has an odd number of digits; bytes "
                           "are two hex digits each", word);
    for (i = 0; word[i] != '\0'; i += 2) {
        if (*length == WORDS_BYTES_MAX)
            return !fault_says(fault, "there are more than %d bytes",
                               WORDS_BYTES_MAX);
        bytes[(*length)++] = (uint8_t)(digit_value(word[i]) << 4
                                       | digit_value(word[i + 1]));
    }
    return 1;
}

static int read_kind(const char *word, call_kind *kind,
                     char fault[FAULT_LENGTH])
{
    char list[LIST_LENGTH] = "";
    unsigned i;

    for (i = 0; i < CALLS; i++) {
        *kind = (call_kind)i;
        if (word != NULL && same_word(call_forms[i].name, word))
            return 1;
        add_item(list, call_forms[i].name);
    }
    if (word == NULL)
        return !fault_says(fault, "no call is given; calls are %s", list);
    return !fault_says(fault, WORD " is no call; calls are %s", word, list);
}

/* Says which word is missing. */
static int lacks(call_kind kind, const char *word, char fault[FAULT_LENGTH])
{
    char form[FORM_LENGTH];

    call_form_words(kind, form);
    return !fault_says(fault, "%s lacks %s; its words are %s",
                       call_forms[kind].name, word, form);
}

/* What stands behind the fields. */
static int read_rest(char *const *words, size_t count,
                     uint8_t bytes[WORDS_BYTES_MAX], call *read,
                     char fault[FAULT_LENGTH])
{
    char form[FORM_LENGTH];
    size_t i;

    if (call_forms[read->kind].bytes == BYTES_NONE) {
        if (count == 0)
            return 1;
        call_form_words(read->kind, form);
        return !fault_says(fault, WORD " is too much; the words are %s",
                           words[0], form);
    }
    if (call_forms[read->kind].bytes == BYTES_SETUP && count == 0)
        return lacks(read->kind, "SETUP", fault);
    for (i = 0; i < count; i++)
        if (!read_bytes(words[i], bytes, &read->bytes_len, fault))
            return 0;
    return 1;
}

int read_call(char *const *words, size_t count,
              uint8_t bytes[WORDS_BYTES_MAX], call *read,
              char fault[FAULT_LENGTH])
{
    const call_form *form;
    size_t i;

    memset(read, 0, sizeof *read);
    read->bytes = bytes;
    read->room = GRIMHOLDI_REPLY_LENGTH;
    if (!read_kind(count == 0 ? NULL : words[0], &read->kind, fault))
        return 0;
    words++;
    count--;
    form = &call_forms[read->kind];
    for (i = 0; i < form->field_count; i++) {
        const field_form *field = &field_forms[form->fields[i]];

        if (i == count)
            return lacks(read->kind, field->word, fault);
        if (!read_field(field, words[i], &read->numbers[form->fields[i]],
                        fault))
            return 0;
    }
    return read_rest(words + i, count - i, bytes, read, fault);
}
