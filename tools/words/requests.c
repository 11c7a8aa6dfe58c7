#include "requests.h"

#include <stdio.h>

#include "little_endian.h"

static const request_form forms[] = {
    {GRIMHOLDI_TYPE_SET_CONFIGURATION, GRIMHOLDI_REQUEST_SET_CONFIGURATION,
     "SetConfiguration", "0 or 1", "0", "0"},
    {GRIMHOLDI_TYPE_GET_CONFIGURATION, GRIMHOLDI_REQUEST_GET_CONFIGURATION,
     "GetConfiguration", "0", "0", "1"},
    {GRIMHOLDI_TYPE_GET_HUB, GRIMHOLDI_REQUEST_GET_DESCRIPTOR,
     "GetHubDescriptor", "0x2900", "0", "any number"},
    {GRIMHOLDI_TYPE_GET_HUB, GRIMHOLDI_REQUEST_GET_STATUS,
     "GetHubStatus", "0", "0", "4"},
    {GRIMHOLDI_TYPE_GET_PORT, GRIMHOLDI_REQUEST_GET_STATUS,
     "GetPortStatus", "0", NULL, "4"},
    {GRIMHOLDI_TYPE_SET_HUB, GRIMHOLDI_REQUEST_CLEAR_FEATURE,
     "ClearHubFeature", "C_HUB_LOCAL_POWER 0 or C_HUB_OVER_CURRENT 1", "0",
     "0"},
    {GRIMHOLDI_TYPE_SET_PORT, GRIMHOLDI_REQUEST_CLEAR_FEATURE,
     "ClearPortFeature", "PORT_ENABLE 1, PORT_SUSPEND 2, PORT_POWER 8 or a "
     "change, 16 to 20", NULL, "0"},
    {GRIMHOLDI_TYPE_SET_PORT, GRIMHOLDI_REQUEST_SET_FEATURE,
     "SetPortFeature", "PORT_SUSPEND 2, PORT_RESET 4 or PORT_POWER 8", NULL,
     "0"},
    {GRIMHOLDI_TYPE_SET_PORT, GRIMHOLDI_REQUEST_CLEAR_TT_BUFFER,
     "ClearTTBuffer", NULL, "1", "0"},
    {GRIMHOLDI_TYPE_SET_PORT, GRIMHOLDI_REQUEST_RESET_TT,
     "ResetTT", "0", "1", "0"}
};

enum { FORMS = sizeof forms / sizeof *forms };

request read_request(const uint8_t setup[GRIMHOLDI_SETUP_LENGTH])
{
    request read = {NULL, setup[0], setup[1], word_at(setup + 2),
                    word_at(setup + 4), word_at(setup + 6)};
    unsigned i;

    for (i = 0; i < FORMS; i++)
        if (forms[i].type == setup[0] && forms[i].code == setup[1])
            read.form = &forms[i];
    return read;
}

void print_field(const char *name, unsigned number)
{
    printf(number <= 255 ? "%s %u" : "%s 0x%04x", name, number);
}

void print_request(const request *of)
{
    printf("%s, ", of->form->name);
    print_field("wValue", of->value);
    print_field(", wIndex", of->index);
    print_field(", wLength", of->length);
}

static void print_wrong_type(const request *wrong)
{
    unsigned i;

    printf("bmRequestType and bRequest are %02x %02x; the hub has",
           wrong->type, wrong->code);
    for (i = 0; i < FORMS; i++)
        printf("%s %02x %02x", i == 0 ? "" : i + 1 < FORMS ? "," : " and",
               forms[i].type, forms[i].code);
}

/* A wValue of ClearTTBuffer is wrong in these bits or those. */
static void print_wrong_key(unsigned value)
{
    printf("ClearTTBuffer takes type 0 or 2 in bits 11 to 12, here %u, and 0 "
           "in bits 13 to 14, here %u",
           value >> GRIMHOLDI_TT_TRANSFER_SHIFT & 3,
           value >> (GRIMHOLDI_TT_TRANSFER_SHIFT + 2) & 3);
}

void print_wrong(const request *wrong, unsigned thing, unsigned ports)
{
    switch (thing) {
    case GRIMHOLDI_WRONG_TYPE_OR_CODE:
        print_wrong_type(wrong);
        break;
    case GRIMHOLDI_WRONG_UNCONFIGURED:
        printf("the hub is unconfigured; it serves SetConfiguration, "
               "GetConfiguration and GetHubDescriptor, not %s",
               wrong->form->name);
        break;
    case GRIMHOLDI_WRONG_VALUE:
        print_field("wValue is", wrong->value);
        printf(": ");
        if (wrong->form->value == NULL)
            print_wrong_key(wrong->value);
        else
            printf("%s takes %s", wrong->form->name, wrong->form->value);
        break;
    case GRIMHOLDI_WRONG_INDEX:
        print_field("wIndex is", wrong->index);
        if (wrong->form->index != NULL)
            printf(": %s takes %s", wrong->form->name, wrong->form->index);
        else if (ports == 1)
            printf(": this hub has port 1 alone");
        else
            printf(": this hub has ports 1 to %u", ports);
        break;
    default:
        print_field("wLength is", wrong->length);
        printf(": %s takes %s", wrong->form->name, wrong->form->length);
        break;
    }
}
