/* Writes to standard output the file that the lines of standard input make of another one, which stays as it is:
 *
 *     edit FILE < LINES > NEW
 *
 * The status is 3 where the file or a line is refused, whose fault is named on standard error, behind the number of the line. */

#include "olecon.h"

#include <stdio.h>
#include <stdlib.h>

struct bytes {
    uint8_t *at;
    size_t len;
};

static void stop(const char *fault) {
    fprintf(stderr, "%s\n", fault);
    exit(3);
}

/* The same bytes in so much room. */
static uint8_t *grown(uint8_t *at, size_t room) {
    at = realloc(at, room);
    if (at == NULL) {
        stop("NoMemory");
    }
    return at;
}

static struct bytes read_all(FILE *file) {
    size_t room = 65536, more;
    struct bytes bytes = {NULL, 0};
    if (file == NULL) {
        stop("Unreadable");
    }
    bytes.at = grown(NULL, room);
    while ((more = fread(bytes.at + bytes.len, 1, room - bytes.len, file)) > 0) {
        bytes.len += more;
        if (bytes.len == room) {
            room *= 2;
            bytes.at = grown(bytes.at, room);
        }
    }
    if (ferror(file)) {
        stop("Unreadable");
    }
    return bytes;
}

static void refuse(uint32_t fault, size_t line) {
    char name[32];
    size_t len = 0;
    olecon_fault_name(fault, (uint8_t *)name, sizeof name - 1, &len);
    name[len] = 0;
    if (line > 0) {
        fprintf(stderr, "line %zu: ", line);
    }
    stop(name);
}

/* One call for the length of the new file, and one for the file. */
static struct bytes edited(struct bytes file, struct bytes lines) {
    struct bytes out = {grown(NULL, 1), 0};
    size_t needed = 0, line = 0;
    uint32_t fault = OLECON_NO_ROOM;
    while (fault == OLECON_NO_ROOM) {
        if (needed > 0) {
            out.at = grown(out.at, needed);
            out.len = needed;
        }
        fault = olecon_edit_line(file.at, file.len, lines.at, lines.len, out.at, out.len, &needed, &line);
    }
    if (fault != OLECON_DONE) {
        refuse(fault, line);
    }
    return out;
}

int main(int count, char **words) {
    struct bytes out;
    if (count != 2) {
        fputs("edit FILE\n", stderr);
        return 2;
    }
    out = edited(read_all(fopen(words[1], "rb")), read_all(stdin));
    /* What is still in the buffer is written as the stream is closed. */
    if (fwrite(out.at, 1, out.len, stdout) != out.len || fclose(stdout) != 0) {
        stop("Unwritable");
    }
    return 0;
}
