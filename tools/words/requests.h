/* The table of control requests, document 01: names and permitted fields. */

#ifndef REQUESTS_H
#define REQUESTS_H

#include "grimholdi.h"

typedef struct {
    uint8_t type;
    uint8_t code;
    const char *name;
    const char *value;  /* what is permitted; NULL: a key of the translator */
    const char *index;  /* NULL: a port of the hub */
    const char *length;
} request_form;

typedef struct {
    const request_form *form; /* NULL: no request has this type and code */
    uint8_t type;
    uint8_t code;
    uint16_t value;
    uint16_t index;
    uint16_t length;
} request;

request read_request(const uint8_t setup[GRIMHOLDI_SETUP_LENGTH]);

/* A sentence about the thing that is wrong, GRIMHOLDI_WRONG_... */
void print_wrong(const request *wrong, unsigned thing, unsigned ports);

/* "SetConfiguration, wValue 1, wIndex 0, wLength 0", of one with a form */
void print_request(const request *of);

/* A field: decimal up to 255, else hex. */
void print_field(const char *name, unsigned number);

#endif
