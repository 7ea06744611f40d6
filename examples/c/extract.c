/* Lists a compound file, or writes one of its streams to standard output:
 *
 *     extract FILE          the listing
 *     extract FILE PATH     the bytes of the stream at PATH
 *
 * The status is 3 where the file or the path is refused, whose fault is named on standard error. */

#include "olecon.h"

#include <stdio.h>
#include <stdlib.h>
#include <string.h>

struct bytes {
    uint8_t *at;
    size_t len;
};

static struct bytes room(size_t len) {
    struct bytes bytes = {malloc(len + 1), len};
    if (bytes.at == NULL) {
        fputs("NoMemory\n", stderr);
        exit(3);
    }
    return bytes;
}

static struct bytes read_file(const char *name) {
    FILE *file = fopen(name, "rb");
    struct bytes bytes;
    long len;
    if (file == NULL || fseek(file, 0, SEEK_END) != 0 || (len = ftell(file)) < 0) {
        fputs("Unreadable\n", stderr);
        exit(3);
    }
    rewind(file);
    bytes = room((size_t)len);
    if (fread(bytes.at, 1, bytes.len, file) != bytes.len) {
        fputs("Unreadable\n", stderr);
        exit(3);
    }
    fclose(file);
    return bytes;
}

static void refuse(uint32_t fault) {
    uint8_t name[32];
    size_t len = 0;
    olecon_fault_name(fault, name, sizeof name, &len);
    fprintf(stderr, "%.*s\n", (int)len, (const char *)name);
    exit(3);
}

/* One call for the length of the answer, and one for the answer. */
static struct bytes answer(struct bytes file, const char *path) {
    uint8_t none[1];
    struct bytes out = {none, 0};
    size_t needed = 0;
    uint32_t fault = OLECON_NO_ROOM;
    while (fault == OLECON_NO_ROOM) {
        if (needed > 0) {
            out = room(needed);
        }
        fault = path == NULL
            ? olecon_list(file.at, file.len, out.at, out.len, &needed)
            : olecon_get(file.at, file.len, (const uint8_t *)path, strlen(path), out.at, out.len, &needed);
    }
    if (fault != OLECON_DONE) {
        refuse(fault);
    }
    out.len = needed;
    return out;
}

int main(int count, char **words) {
    struct bytes out;
    if (count != 2 && count != 3) {
        fputs("extract FILE [PATH]\n", stderr);
        return 2;
    }
    out = answer(read_file(words[1]), count == 3 ? words[2] : NULL);
    /* What is still in the buffer is written as the stream is closed. */
    if (fwrite(out.at, 1, out.len, stdout) != out.len || fclose(stdout) != 0) {
        fputs("Unwritable\n", stderr);
        return 3;
    }
    return 0;
}
