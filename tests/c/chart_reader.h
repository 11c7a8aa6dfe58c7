/*
 * Reads the chart of one port from its text.  A cell has one written form, and
 * no other is taken.  Columns and lines in other places, and stray characters,
 * are faults; a fault has a line and a column.
 */

#ifndef CHART_READER_H
#define CHART_READER_H

#include "chart.h"

enum { LABEL_WIDTH = 11, CELL_WIDTH = 12, TEXT_MAX = 65535 };

typedef struct {
    const char *text;   /* ends with a zero */
    size_t at;          /* where the reader stands, or the fault */
    const char *missed; /* what isn't there */
} reader;

/* Line and column are counted from 1. */
static inline unsigned long line_at(const reader *r)
{
    unsigned long line = 1;
    size_t i;

    for (i = 0; i < r->at; i++)
        line += r->text[i] == '\n';
    return line;
}

static inline unsigned long column_at(const reader *r)
{
    size_t start = r->at;

    while (start > 0 && r->text[start - 1] != '\n')
        start--;
    return (unsigned long)(r->at - start + 1);
}

static inline int miss_at(reader *r, size_t at, const char *what)
{
    r->at = at;
    r->missed = what;
    return 0;
}

static inline int miss(reader *r, const char *what)
{
    return miss_at(r, r->at, what);
}

/* Goes behind the text if it stands here. */
static inline int take(reader *r, const char *text)
{
    const size_t length = strlen(text);

    if (strncmp(r->text + r->at, text, length) != 0)
        return 0;
    r->at += length;
    return 1;
}

/* Goes up to the first character that differs. */
static inline int expect(reader *r, const char *text)
{
    const char *c;

    for (c = text; *c != '\0'; c++, r->at++)
        if (r->text[r->at] != *c)
            return miss(r, text);
    return 1;
}

static inline int expect_padded(reader *r, const char *text, size_t width)
{
    const size_t end = r->at + width;

    if (!expect(r, text))
        return 0;
    while (r->at < end)
        if (!take(r, " "))
            return miss(r, "a blank");
    return 1;
}

static inline int expect_line_end(reader *r)
{
    return take(r, "\n") || miss(r, "the line's end");
}

static inline int read_legend(reader *r)
{
    const char *c;

    for (c = legend; *c != '\0'; c++) {
        const char here = r->text[r->at];

        if (*c != ' ' ? here != *c : here != ' ' && here != '\n')
            return miss(r, "the legend");
        r->at += *c == ' ' ? strspn(r->text + r->at, " \n") : 1;
    }
    return expect_line_end(r) && expect_line_end(r);
}

/* The next state with its speed, or blanks where both are the line's own. */
static inline int read_next(reader *r, cell *c)
{
    const cell own = *c;
    const size_t start = r->at;

    if (take(r, "      "))
        return 1;
    for (c->state = 0; c->state < STATES; c->state++)
        if (take(r, state_letters[c->state]))
            break;
    if (c->state == STATES)
        return miss(r, "a state");
    c->speed = 0;
    if (c->state < DISABLED) {
        if (!take(r, "  "))
            return miss(r, "no speed");
    } else {
        while (c->speed < SPEEDS && !take(r, speed_letters[c->speed]))
            c->speed++;
        if (c->speed == SPEEDS)
            return miss(r, "a speed");
    }
    return c->state != own.state || c->speed != own.speed
           || miss_at(r, start, "a state or speed that is not the line's own");
}

static inline int read_level(reader *r, cell *c)
{
    if (take(r, c->level == 0 ? "^" : "v"))
        c->level = !c->level;
    else if (!take(r, " "))
        return miss(r, "a level that begins or ends");
    return expect(r, " ");
}

static inline int read_changes(reader *r, cell *c)
{
    uint8_t *bits = &c->set;
    uint8_t bit;

    if (take(r, "    "))
        return 1;
    if (take(r, "-all")) {
        c->cleared = ALL_CHANGES;
        return 1;
    }
    if (!take(r, "+")) {
        if (!take(r, "-"))
            return miss(r, "change bits");
        bits = &c->cleared;
    }
    for (bit = 0; change_letters[bit] != '\0'; bit++)
        if (r->text[r->at] == change_letters[bit]) {
            *bits = (uint8_t)(1u << bit);
            r->at++;
            return expect(r, "  ");
        }
    return miss(r, "a change bit");
}

/* The cell is that of a line where nothing changes, before. */
static inline int read_cell(reader *r, cell *c)
{
    const cell nothing = *c;
    const size_t start = r->at;

    if (take(r, "           ."))
        return 1;
    if (take(r, "           2")) {
        c->answer = GRIMHOLDI_ANSWER_STALL;
        return 1;
    }
    if (take(r, "           8")) {
        c->answer = GRIMHOLDI_ANSWER_NOT_NOW;
        return 1;
    }
    if (!read_next(r, c) || !read_level(r, c) || !read_changes(r, c))
        return 0;
    return memcmp(c, &nothing, sizeof nothing) != 0
           || miss_at(r, start, "a dot, a number or a change");
}

static inline int read_headings(reader *r, int part)
{
    int input;

    if (!expect_padded(r, "state", LABEL_WIDTH))
        return 0;
    for (input = parts[part]; input < parts[part + 1]; input++)
        if (!expect(r, " |")
            || !expect_padded(r, inputs[input].heading, CELL_WIDTH))
            return 0;
    return expect(r, " |") && expect_line_end(r);
}

static inline int read_line(reader *r, chart *c, int level, int part, int line)
{
    int input;

    if (!expect_padded(r, lines[line].label, LABEL_WIDTH))
        return 0;
    for (input = parts[part]; input < parts[part + 1]; input++) {
        const cell nothing = {lines[line].state, lines[line].speed,
                              (uint8_t)level, 0, 0, GRIMHOLDI_ANSWER_DONE};

        c->cells[level][line][input] = nothing;
        if (!expect(r, " |")
            || !read_cell(r, &c->cells[level][line][input]))
            return 0;
        c->count++;
    }
    return expect(r, " |") && expect_line_end(r);
}

/* Empty lines stand between the parts and around the titles. */
static inline int read_part(reader *r, chart *c, int level, int part)
{
    int line;

    if (level + part > 0 && !expect_line_end(r))
        return 0;
    if (part == 0 && (!expect(r, level_titles[level]) || !expect_line_end(r)
                      || !expect_line_end(r)))
        return 0;
    if (!read_headings(r, part))
        return 0;
    for (line = 0; line < LINES; line++)
        if (!read_line(r, c, level, part, line))
            return 0;
    return 1;
}

/* The whole text, of this length; or the reader stands at the fault. */
static inline int read_chart(reader *r, chart *c, size_t length)
{
    int i;

    c->count = 0;
    if (!read_legend(r))
        return 0;
    for (i = 0; i < LEVELS * PARTS; i++)
        if (!read_part(r, c, i / PARTS, i % PARTS))
            return 0;
    return r->at == length || miss(r, "the chart's end");
}

#endif
