#include "fault.h"

#include <stdarg.h>
#include <stdio.h>

int fault_says(char fault[FAULT_LENGTH], const char *format, ...)
{
    va_list arguments;

    va_start(arguments, format);
    vsnprintf(fault, FAULT_LENGTH, format, arguments);
    va_end(arguments);
    return 1;
}
