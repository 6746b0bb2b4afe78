/* Kimorefo from C and C++: scenes are planned in the thread of the caller, by one worker.
 *
 * What the library answers is proved, if it is called as is said here. Nothing checks that a call is, nor that these
 * declarations are those of the library: compare `kimorefo_version()` with KIMOREFO_VERSION.
 *
 * What a caller owes:
 * - `text` has `text_bytes` bytes, `report` has `report_bytes`, and `room` has `room_bytes` that may be written. No
 *   size is above PTRDIFF_MAX. A pointer may be NULL if its size is 0.
 * - `count` points to a `size_t`, and `line`, `kind` and `law` each point to a `uint32_t`. They need no value before.
 * - What may be written (the room and these numbers) overlaps nothing else that is handed in.
 * - During the call no other thread writes to any of these, or reads what may be written.
 * - No call is made from a signal handler, or in the forked child of a process that had threads.
 * - The thread has KIMOREFO_STACK_BYTES of stack left.
 * - malloc, realloc and free are one allocator. It aligns a block to each power of two up to 16 that divides its size.
 *
 * Nothing is kept between calls: several threads may call at the same time, and the same call gives the same answer. A
 * call gives back all memory before it returns, which is tested and not proved. Each call returns, and none can be
 * cancelled: end the process if it takes too long. */
#ifndef KIMOREFO_H
#define KIMOREFO_H

#include <stdbool.h>
#include <stddef.h>
#include <stdint.h>

#define KIMOREFO_VERSION 1000 /* of this header: 0.10.0 */
#define KIMOREFO_MOST_TEXT 16777216 /* bytes of the text of a scene */
#define KIMOREFO_MOST_REPORT 4294967294 /* bytes of a report that is checked */
#define KIMOREFO_MOST_SHORT_REPORT 4194432 /* bytes of any report that is not full */
#define KIMOREFO_STACK_BYTES 65536 /* tests saw less than half of it in use; no proof says so */

/* How a call ends, as the program does. */
enum kimorefo_status {
    KIMOREFO_FOUND = 0,         /* the report has a path */
    KIMOREFO_LAWFUL = 0,        /* the report is that of a lawful run of the scene */
    KIMOREFO_NO_PATH = 1,       /* there is a report, without a path */
    KIMOREFO_BROKEN = 1,        /* the report breaks a law */
    KIMOREFO_REFUSED = 3,       /* the text is no scene, or a text is too long */
    KIMOREFO_START_BLOCKED = 4, /* the start is not clear */
    KIMOREFO_NO_MEMORY = 7,
    KIMOREFO_NO_ROOM = 9        /* the room has fewer than `*count` bytes */
};

#ifdef __cplusplus
extern "C" {
#endif

/* Plans the scene of a text. With KIMOREFO_FOUND and KIMOREFO_NO_PATH the report, short or full, is at the front of
 * the room, and `*count` is its size. With KIMOREFO_NO_ROOM `*count` is the size that the report has: nothing was kept,
 * so a call with that room plans again. Otherwise `*count` is 0. With KIMOREFO_REFUSED `*line` and `*kind` say where
 * and why the text is refused, or are 0 if it is too long; otherwise they are 0. The rest of the room stays as it
 * was. */
uint32_t kimorefo_plan(const void *text, size_t text_bytes, bool full, void *room, size_t room_bytes, size_t *count,
                       uint32_t *line, uint32_t *kind);

/* The same with the path shortened, and always with the short report. */
uint32_t kimorefo_smooth(const void *text, size_t text_bytes, void *room, size_t room_bytes, size_t *count,
                         uint32_t *line, uint32_t *kind);

/* Judges a full report of the scene of a text. With KIMOREFO_BROKEN `*line` is the first line of the report that breaks
 * a law, and `*law` is that law. With KIMOREFO_REFUSED `*line` and `*kind` say where and why the text is refused, or
 * are 0 if it or the report is too long. What is not named is 0. */
uint32_t kimorefo_check(const void *text, size_t text_bytes, const void *report, size_t report_bytes, uint32_t *line,
                        uint32_t *kind, uint32_t *law);

/* Writes the logic that the library was proved with, as `rt version` names it: 0, or KIMOREFO_NO_ROOM, as above. */
uint32_t kimorefo_logic(void *room, size_t room_bytes, size_t *count);

/* The version of the library: 100000 for each major version, 100 for each minor one, and 1 for each patch. */
uint32_t kimorefo_version(void);

/* The library takes no NULL. So the names above are given, below, to functions that hand on some other pointer. */
static inline const void *kimorefo_bytes(const void *at) {
    return at ? at : "";
}

static inline void *kimorefo_room(void *at) {
    static uint8_t none;
    return at ? at : &none;
}

static inline uint32_t kimorefo_call_plan(const void *text, size_t text_bytes, bool full, void *room, size_t room_bytes,
                                          size_t *count, uint32_t *line, uint32_t *kind) {
    return kimorefo_plan(kimorefo_bytes(text), text_bytes, full, kimorefo_room(room), room_bytes, count, line, kind);
}

static inline uint32_t kimorefo_call_smooth(const void *text, size_t text_bytes, void *room, size_t room_bytes,
                                            size_t *count, uint32_t *line, uint32_t *kind) {
    return kimorefo_smooth(kimorefo_bytes(text), text_bytes, kimorefo_room(room), room_bytes, count, line, kind);
}

static inline uint32_t kimorefo_call_check(const void *text, size_t text_bytes, const void *report, size_t report_bytes,
                                           uint32_t *line, uint32_t *kind, uint32_t *law) {
    return kimorefo_check(kimorefo_bytes(text), text_bytes, kimorefo_bytes(report), report_bytes, line, kind, law);
}

static inline uint32_t kimorefo_call_logic(void *room, size_t room_bytes, size_t *count) {
    return kimorefo_logic(kimorefo_room(room), room_bytes, count);
}

#define kimorefo_plan kimorefo_call_plan
#define kimorefo_smooth kimorefo_call_smooth
#define kimorefo_check kimorefo_call_check
#define kimorefo_logic kimorefo_call_logic

#ifdef __cplusplus
}
#endif
#endif
