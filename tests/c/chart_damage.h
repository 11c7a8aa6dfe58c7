/* Damage to the chart's text, which the reader has to refuse. */

#ifndef CHART_DAMAGE_H
#define CHART_DAMAGE_H

#include "chart_reader.h"
#include "check.h"

static char damaged[2 * TEXT_MAX + 1];

/* The fault is in this line, in this column or less than a cell before it. */
static inline int is_refused(unsigned long line, unsigned long column)
{
    static chart unused;
    reader r = {damaged, 0, ""};

    return !read_chart(&r, &unused, strlen(damaged)) && line_at(&r) == line
           && column_at(&r) <= column && column < column_at(&r) + CELL_WIDTH;
}

/* A stray character in the line, the line left out, and the line twice. */
static inline void damage_line(const char *text, const char *start,
                               unsigned long number)
{
    const size_t before = (size_t)(start - text);
    const size_t length = strcspn(start, "\n") + 1;
    const size_t place = number % length;

    strcpy(damaged, text);
    damaged[before + place] = '?';
    CHECK(is_refused(number, place + 1));
    strcpy(damaged + before, start + length);
    CHECK(is_refused(number, LABEL_WIDTH));
    strcpy(damaged + before, start);
    strcpy(damaged + before + length, start);
    CHECK(is_refused(number + 1, LABEL_WIDTH));
}

/* A column of a part, from its heading on, in the place of the next. */
static inline void swap_columns(const char *text, const char *headings,
                                size_t column)
{
    const size_t width = 2 + CELL_WIDTH;
    const size_t length = strcspn(headings, "\n") + 1;
    size_t at = (size_t)(headings - text) + LABEL_WIDTH + column * width;
    int i;

    strcpy(damaged, text);
    for (i = 0; i <= LINES; i++, at += length) {
        memcpy(damaged + at, text + at + width, width);
        memcpy(damaged + at + width, text + at, width);
    }
}

static inline void damage_columns(const char *text, const char *headings,
                                  unsigned long number)
{
    const size_t width = 2 + CELL_WIDTH;
    const size_t columns = (strcspn(headings, "\n") - LABEL_WIDTH) / width;
    size_t i;

    for (i = 0; i + 1 < columns; i++) {
        swap_columns(text, headings, i);
        CHECK(is_refused(number, LABEL_WIDTH + (i + 1) * width));
    }
}

/* A text that is read; every line but the legend's. */
static inline void damage_chart(const char *text)
{
    const char *start = strstr(text, level_titles[0]);
    const reader r = {text, (size_t)(start - text), ""};
    unsigned long number = line_at(&r);

    for (; *start != '\0'; start = strchr(start, '\n') + 1, number++) {
        damage_line(text, start, number);
        if (strncmp(start, "state", 5) == 0)
            damage_columns(text, start, number);
    }
}

#endif
