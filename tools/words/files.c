#include "files.h"

#include <errno.h>
#include <string.h>

#include "complain.h"

int is_standard_input(const char *name)
{
    return strcmp(name, "-") == 0;
}

FILE *open_input(const char **name)
{
    FILE *file;

    if (is_standard_input(*name)) {
        *name = "standard input";
        return stdin;
    }
    file = fopen(*name, "rb");
    if (file == NULL)
        complain(0, "%s: %s", *name, strerror(errno));
    return file;
}

int read_input(FILE *file, uint8_t *bytes, size_t most, size_t *length)
{
    *length = fread(bytes, 1, most, file);
    return !ferror(file);
}

void close_input(FILE *file)
{
    if (file != stdin)
        fclose(file);
}

int output_is_written(void)
{
    int failed = ferror(stdout);

    return (fflush(stdout) == 0 && !failed)
           || complain(0, "standard output: %s", strerror(errno));
}
