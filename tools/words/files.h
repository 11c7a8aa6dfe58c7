/* The files that a program reads, and its standard output. */

#ifndef FILES_H
#define FILES_H

#include <stddef.h>
#include <stdint.h>
#include <stdio.h>

/* The name is - */
int is_standard_input(const char *name);

/*
 * Opens the file; - is standard input, and gets that name.  NULL and a
 * complaint where it can't be opened.
 */
FILE *open_input(const char **name);

/*
 * Reads `most` bytes, or up to the end of the file.  0 where it can't be read;
 * errno says why.
 */
int read_input(FILE *file, uint8_t *bytes, size_t most, size_t *length);

void close_input(FILE *file);

/* 0 and a complaint where something couldn't be written. */
int output_is_written(void);

#endif
