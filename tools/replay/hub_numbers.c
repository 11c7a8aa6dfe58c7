#include "hub_numbers.h"

#include <stdio.h>

#include "../words/call_words.h"
#include "../words/text.h"

enum { BYTE_MAX = 255 };

const char hub_number_words[] = "PORTS BUFFERS POWER_GOOD CURRENT REMOVABLE";

static const struct {
    const char *word;
    const char *name;      /* in sentences */
    uint32_t least;
    uint32_t most;
    const char *permitted;
} forms[HUB_NUMBERS] = {
    [HUB_PORTS] = {"PORTS", "number of ports", GRIMHOLDI_PORTS_MIN,
                   GRIMHOLDI_PORTS_MAX, "1 to 7"},
    [HUB_BUFFERS] = {"BUFFERS", "number of buffers", GRIMHOLDI_BUFFERS_MIN,
                     GRIMHOLDI_BUFFERS_MAX, "2 to 4"},
    [HUB_POWER_GOOD] = {"POWER_GOOD", "power-good time", 0, BYTE_MAX,
                        "0 to 255"},
    [HUB_CURRENT] = {"CURRENT", "current", 0, BYTE_MAX, "0 to 255"},
    [HUB_REMOVABLE] = {"REMOVABLE", "removable byte", 0, BYTE_MAX,
                       "bit p for port p; bit 0 and the bits above PORTS "
                       "have to be 0"}
};

void print_hub_numbers(void)
{
    unsigned i;

    for (i = 0; i < HUB_NUMBERS; i++)
        printf("  %-10s  %s\n", forms[i].word, forms[i].permitted);
}

int read_hub_numbers(char *const words[HUB_NUMBERS],
                     uint32_t numbers[HUB_NUMBERS], char fault[FAULT_LENGTH])
{
    unsigned i;

    for (i = 0; i < HUB_NUMBERS; i++)
        if (!read_number(words[i], forms[i].name, &numbers[i], fault))
            return 0;
    return 1;
}

static int is_outside(hub_number which, uint32_t number)
{
    return number < forms[which].least || number > forms[which].most;
}

/* Bit 0 and those above the last port; where that is wrong too, above 7. */
static int removable_fault(uint32_t ports, uint32_t removable,
                           char text[FAULT_LENGTH])
{
    if (is_outside(HUB_PORTS, ports))
        ports = GRIMHOLDI_PORTS_MAX;
    if ((removable & 1) == 0 && removable >> (ports + 1) == 0)
        return 0;
    return fault_says(text, "REMOVABLE is 0x%02lx, bit 0 and the bits above "
                      "%lu have to be 0", (unsigned long)removable,
                      (unsigned long)ports);
}

static int number_fault(hub_number which, const uint32_t *numbers,
                        char text[FAULT_LENGTH])
{
    if (which == HUB_REMOVABLE)
        return removable_fault(numbers[HUB_PORTS], numbers[which], text);
    return is_outside(which, numbers[which])
           && fault_says(text, "%s is %lu, %s are permitted",
                         forms[which].word, (unsigned long)numbers[which],
                         forms[which].permitted);
}

/* The library refuses the numbers: names each that is outside the rules. */
static void name_numbers(const uint32_t *numbers, char fault[FAULT_LENGTH])
{
    const char *before = ": ";
    char one[FAULT_LENGTH];
    unsigned i;

    fault_says(fault, "%s (%d)",
               grimholdi_answer_name(GRIMHOLDI_ANSWER_OUTSIDE),
               GRIMHOLDI_ANSWER_OUTSIDE);
    for (i = 0; i < HUB_NUMBERS; i++)
        if (number_fault((hub_number)i, numbers, one)) {
            add_text(fault, FAULT_LENGTH, before);
            add_text(fault, FAULT_LENGTH, one);
            before = "; ";
        }
}

size_t make_hub(const uint32_t numbers[HUB_NUMBERS],
                uint8_t area[GRIMHOLDI_AREA_LENGTH_MAX],
                char fault[FAULT_LENGTH])
{
    size_t length = grimholdi_area_length(numbers[HUB_PORTS],
                                          numbers[HUB_BUFFERS]);

    if (grimholdi_new(area, length, numbers[HUB_PORTS], numbers[HUB_BUFFERS],
                      numbers[HUB_POWER_GOOD], numbers[HUB_CURRENT],
                      numbers[HUB_REMOVABLE]).number == GRIMHOLDI_ANSWER_DONE)
        return length;
    name_numbers(numbers, fault);
    return 0;
}
