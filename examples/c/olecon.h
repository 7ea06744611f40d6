/* OLE 2 compound files in memory: listing, reading, making, editing, cleaning and checking them.
 *
 * Each call reads bytes of the caller's, puts its answer at the front of a place of the caller's (OUT, of OUT_LEN bytes),
 * and tells in NEEDED how many bytes the answer has. It keeps none of the caller's memory, holds nothing between calls,
 * and writes no byte of the place behind the answer. So several threads may call at once, where malloc, realloc and free may be
 * called so.
 *
 * It answers 0 where all was done; 1 where the place is too short: then nothing is put, and NEEDED says how long it has to
 * be, so that a first call may have no place at all; else the number of a fault, whose name olecon_fault_name tells, with
 * NEEDED 0 and nothing put. No fault is one of reading or of writing: a file that holds a tree is refused for want of memory, for
 * more than 134,217,728 bytes, or for what is asked of it.
 *
 * What a caller owes: each pointer leads to so many bytes that may be read, or written for OUT, NEEDED, LINE and FAULT, until
 * the call is done; these overlap each other and what is read nowhere; none of the pointers is NULL, also where the length is 0;
 * malloc, realloc and free are those of one C library. */

#ifndef OLECON_H
#define OLECON_H

#include <stddef.h>
#include <stdint.h>

#ifdef __cplusplus
extern "C" {
#endif

#define OLECON_DONE 0u
#define OLECON_NO_ROOM 1u
#define OLECON_NO_MEMORY 2u

/* The listing of a file, in lines: "root CLASS", "storage PATH CLASS" and "stream PATH SIZE", depth first in name order. */
uint32_t olecon_list(const uint8_t *file, size_t file_len, uint8_t *out, size_t out_len, size_t *needed);

/* The same as one JSON value: an array with an object for each line. */
uint32_t olecon_list_json(const uint8_t *file, size_t file_len, uint8_t *out, size_t out_len, size_t *needed);

/* The bytes of the stream at a path, spelled as the listing spells it. */
uint32_t olecon_get(const uint8_t *file, size_t file_len, const uint8_t *path, size_t path_len, uint8_t *out, size_t out_len,
                    size_t *needed);

/* The file of a flat list: a line "storage PATH", "stream PATH HEX" ("-" for no bytes) or "fill PATH COUNT HH" for each. */
uint32_t olecon_make(const uint8_t *description, size_t description_len, uint8_t *out, size_t out_len, size_t *needed);

/* The same, and in LINE the number of the line that is refused, from 1; 0 where none is. */
uint32_t olecon_make_line(const uint8_t *description, size_t description_len, uint8_t *out, size_t out_len, size_t *needed,
                          size_t *line);

/* The file that lines make of another one: "stream PATH HEX" ("-" for no bytes) and "fill PATH COUNT HH" for a new stream or other
 * bytes of one, "storage PATH [CLASS]", "remove PATH", "rename PATH NAME", "class PATH ID" and "state PATH BITS". All are carried
 * out, or the first that can't be is told as the fault. A line "file PATH NAME", which reads a file of the system in the program, is
 * refused here. What is freed keeps its bytes until it is written over; olecon_clean leaves them behind. */
uint32_t olecon_edit(const uint8_t *file, size_t file_len, const uint8_t *lines, size_t lines_len, uint8_t *out, size_t out_len,
                     size_t *needed);

/* The same, and in LINE the number of the line that is refused, from 1; 0 where none is. */
uint32_t olecon_edit_line(const uint8_t *file, size_t file_len, const uint8_t *lines, size_t lines_len, uint8_t *out, size_t out_len,
                          size_t *needed, size_t *line);

/* A file of the same storages and streams, and nothing else. */
uint32_t olecon_clean(const uint8_t *file, size_t file_len, uint8_t *out, size_t out_len, size_t *needed);

/* Whether a file is sound: "ok", or a line with its fault and the place where that is. FAULT is the number of the file's fault, and 0
 * where it has none, or where that wasn't found out. A file that is at fault is answered as one that is sound: by 0. */
uint32_t olecon_check(const uint8_t *file, size_t file_len, uint8_t *out, size_t out_len, size_t *needed, uint32_t *fault);

/* The same as one JSON value. */
uint32_t olecon_check_json(const uint8_t *file, size_t file_len, uint8_t *out, size_t out_len, size_t *needed, uint32_t *fault);

/* The name of the fault of a number; empty for a number of no fault. */
uint32_t olecon_fault_name(uint32_t number, uint8_t *out, size_t out_len, size_t *needed);

#ifdef __cplusplus
}
#endif

#endif
