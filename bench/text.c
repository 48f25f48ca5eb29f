/* The report of 63 messages of 1 MiB that were received and printed, as a C programmer would write it: each body is made,
   then spelled in hexadecimal into one text in memory, which is written at the end. 132 MB. */
#include <stdio.h>
#include <stdlib.h>
#include <string.h>
#include <unistd.h>

enum { MESSAGES = 63, LENGTH = 1 << 20 };

static unsigned char *body(void) {
    unsigned char *made = malloc(LENGTH);
    for (unsigned k = 0; made && k < LENGTH; k++) made[k] = (31 * k + 7) % 251;
    return made;
}

static char *spell(char *at, const unsigned char *bytes) {
    static const char digits[] = "0123456789abcdef";
    for (unsigned k = 0; k < LENGTH; k++) {
        *at++ = digits[bytes[k] >> 4];
        *at++ = digits[bytes[k] & 15];
    }
    return at;
}

int main(void) {
    char *text = malloc(MESSAGES * (2 * (size_t)LENGTH + 64) + 4096), *end = text;
    if (!text) return 6;
    for (int k = 0; k < MESSAGES; k++) end += sprintf(end, "0 %d sent\n", 65 + k);
    for (int k = 0; k < MESSAGES; k++) {
        unsigned char *bytes = body();
        if (!bytes) return 6;
        end += sprintf(end, "1 %d got 0 %d %d x", 129 + 2 * k, k, LENGTH);
        end = spell(end, bytes);
        *end++ = '\n';
        free(bytes);
    }
    end += sprintf(end, "cells 16 home 16\ndone\n");
    for (char *at = text; at < end;) {
        ssize_t done = write(1, at, end - at);
        if (done <= 0) return 5;
        at += done;
    }
    return 0;
}
