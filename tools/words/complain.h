/* What is wrong, on standard error. */

#ifndef COMPLAIN_H
#define COMPLAIN_H

/* Each program has its own. */
extern const char program_name[];

/* A line behind the program's name; `status`, always. */
int complain(int status, const char *format, ...);

#endif
