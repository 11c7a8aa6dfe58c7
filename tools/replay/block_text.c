#include "block_text.h"

#include <stdio.h>

#include "../words/little_endian.h"
#include "../words/record.h"
#include "../words/text.h"
#include "answer_text.h"
#include "block_layout.h"

enum { ANSWER_LENGTH = 10 }; /* without its reply */

/* The records of a block, one behind the other. */
typedef struct {
    const uint8_t *block;
    size_t at;
    size_t end;
    unsigned number;          /* of the record, from 1 */
    call made;
    char fault[FAULT_LENGTH]; /* of the record that is none */
} records;

static records first_record(const uint8_t *block)
{
    records of = {.block = block, .at = BLOCK_RECORDS};

    of.end = of.at + word_at(block + BLOCK_COUNT);
    return of;
}

/* Reads the record; 0 where none is left, or none is there. */
static size_t read_next(records *of)
{
    of->number++;
    return read_record(of->block + of->at, of->end - of->at, &of->made,
                       of->fault);
}

static grimholdi_answer answer_at(const uint8_t *bytes)
{
    grimholdi_answer answer = {
        bytes[0], bytes[1], bytes[2], bytes[3], bytes[4], bytes[5], bytes[6],
        bytes[7], bytes[8], bytes[9]
    };

    return answer;
}

void print_block(uint32_t place, const uint8_t block[GRIMHOLDI_BLOCK_LENGTH],
                 const uint8_t *answers)
{
    records of = first_record(block);
    size_t length;

    for (; (length = read_next(&of)) != 0; of.at += length) {
        grimholdi_answer answer = answer_at(answers);

        answers += ANSWER_LENGTH;
        printf("%lu.%u ", (unsigned long)place, of.number);
        print_call_words(&of.made);
        printf(": ");
        print_answer(&of.made, &answer, answers);
        printf("\n");
        answers += answer.length;
    }
}

static void check_fault(const uint8_t *block, char fault[FAULT_LENGTH])
{
    uint16_t sum = 0;
    size_t i;

    for (i = 0; i < GRIMHOLDI_BLOCK_LENGTH; i += 2)
        sum = (uint16_t)(sum + word_at(block + i));
    fault_says(fault, "check: the sum of its words is 0x%04x; 0 is right",
               sum);
}

static void number_fault(const uint8_t *block, uint32_t place,
                         char fault[FAULT_LENGTH])
{
    unsigned number = word_at(block + BLOCK_NUMBER);

    if (place > GRIMHOLDI_BLOCK_NUMBER_MAX)
        fault_says(fault, "number: it is %u; no number is right for a place "
                   "above %d", number, GRIMHOLDI_BLOCK_NUMBER_MAX);
    else
        fault_says(fault, "number: it is %u; the block's place is %lu",
                   number, (unsigned long)place);
}

static void count_fault(const uint8_t *block, char fault[FAULT_LENGTH])
{
    unsigned count = word_at(block + BLOCK_COUNT);
    size_t i = BLOCK_RECORDS + count;

    if (count > GRIMHOLDI_BLOCK_USED_MAX) {
        fault_says(fault, "count: it is %u; a block has %d at most", count,
                   GRIMHOLDI_BLOCK_USED_MAX);
        return;
    }
    while (i < BLOCK_CHECK && block[i] == 0)
        i++;
    fault_says(fault, "count: it is %u, and byte %u behind those used is %u; "
               "0 is right", count, (unsigned)i, block[i]);
}

static void record_fault(const uint8_t *block, char fault[FAULT_LENGTH])
{
    records of = first_record(block);
    size_t length;

    while ((length = read_next(&of)) != 0)
        of.at += length;
    fault_says(fault, "record: record %u, at byte %u: %s", of.number,
               (unsigned)of.at, of.fault);
}

void block_fault(unsigned refusal, uint32_t place, const uint8_t *block,
                 size_t length, char fault[FAULT_LENGTH])
{
    switch (refusal) {
    case GRIMHOLDI_REFUSED_LENGTH:
        fault_says(fault, "length: it has " BYTE_COUNT "; a block has %d",
                   BYTE_COUNT_OF(length), GRIMHOLDI_BLOCK_LENGTH);
        break;
    case GRIMHOLDI_REFUSED_CHECK:
        check_fault(block, fault);
        break;
    case GRIMHOLDI_REFUSED_NUMBER:
        number_fault(block, place, fault);
        break;
    case GRIMHOLDI_REFUSED_COUNT:
        count_fault(block, fault);
        break;
    default:
        record_fault(block, fault);
        break;
    }
}
