/* Writes to standard output whether a compound file is sound, or its fault and where that is:
 *
 *     check FILE            one line
 *     check FILE json       one JSON value
 *
 * The status is 3 where the file is at fault or refused, whose fault is named on standard error. */

#include "olecon.h"

#include <stdio.h>
#include <stdlib.h>

struct bytes {
    uint8_t *at;
    size_t len;
};

static void stop(const char *fault) {
    fprintf(stderr, "%s\n", fault);
    exit(3);
}

static struct bytes room(size_t len) {
    struct bytes bytes = {malloc(len + 1), len};
    if (bytes.at == NULL) {
        stop("NoMemory");
    }
    return bytes;
}

static struct bytes read_file(const char *name) {
    FILE *file = fopen(name, "rb");
    struct bytes bytes;
    long len;
    if (file == NULL || fseek(file, 0, SEEK_END) != 0 || (len = ftell(file)) < 0) {
        stop("Unreadable");
    }
    rewind(file);
    bytes = room((size_t)len);
    if (fread(bytes.at, 1, bytes.len, file) != bytes.len) {
        stop("Unreadable");
    }
    fclose(file);
    return bytes;
}

static void refuse(uint32_t fault) {
    char name[32];
    size_t len = 0;
    olecon_fault_name(fault, (uint8_t *)name, sizeof name - 1, &len);
    name[len] = 0;
    stop(name);
}

int main(int count, char **words) {
    uint8_t none[1];
    struct bytes file, out = {none, 0};
    size_t needed = 0;
    uint32_t fault = 0, done = OLECON_NO_ROOM;
    if (count != 2 && count != 3) {
        fputs("check FILE [json]\n", stderr);
        return 2;
    }
    file = read_file(words[1]);
    /* One call for the length of the text, and one for the text. */
    while (done == OLECON_NO_ROOM) {
        if (needed > 0) {
            out = room(needed);
        }
        done = (count == 3 ? olecon_check_json : olecon_check)(file.at, file.len, out.at, out.len, &needed, &fault);
    }
    if (done != OLECON_DONE) {
        refuse(done);
    }
    /* What is still in the buffer is written as the stream is closed. */
    if (fwrite(out.at, 1, needed, stdout) != needed || fclose(stdout) != 0) {
        stop("Unwritable");
    }
    if (fault != 0) {
        refuse(fault);
    }
    return 0;
}
