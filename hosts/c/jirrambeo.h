/* Jirrambeo in the caller's own process: mutation and aliasing inference for React code, proved right.
 *
 * Link libjirrambeo.a; it wants malloc, realloc, free, memmove and memset of the C library, and nothing else.
 * It is compiled for x86-64-v2 under Linux's calling convention, as position-independent code. MIT licence: LICENSE has the notices. */
#ifndef JIRRAMBEO_H
#define JIRRAMBEO_H

#include <stddef.h>
#include <stdint.h>
#include <stdlib.h>
#include <string.h>
#include <sys/mman.h>

#ifdef __cplusplus
extern "C" {
#endif

/* How a run ends. The program of the same name ends with the same numbers; 1, 7 and 8, which are of its streams, never come from a call. Of a status but 0
 * and 10 the text is the line "refused .." that docs/FORMAT.md describes. */
enum {
    JIRRAMBEO_DONE = 0,           /* the text is the result */
    JIRRAMBEO_WORDS = 2,          /* the line is no command */
    JIRRAMBEO_NOT_JSON = 3,       /* the input is no JSON, or nests deeper than 127 levels */
    JIRRAMBEO_NOT_UNIT = 4,       /* the input is JSON, and no unit */
    JIRRAMBEO_UNFIT = 5,          /* the unit breaks a rule */
    JIRRAMBEO_REFUSED = 6,        /* the inference refuses the unit */
    JIRRAMBEO_TOO_LONG = 9,       /* the input has more than 16,777,216 bytes */
    JIRRAMBEO_MEMORY = 10,        /* malloc or realloc gave nothing; the text is empty */
    JIRRAMBEO_BAD_LINE = 12,      /* a line of the certificate isn't in its grammar */
    JIRRAMBEO_REJECTED = 13,      /* the certificate isn't one of the unit */
    JIRRAMBEO_NOT_HERE = 14,      /* the identifier doesn't stand in that function */
    JIRRAMBEO_PLAIN_REFUSED = 15, /* it isn't known whether the unit is plain */
    JIRRAMBEO_DIFFERS = 16,       /* a line of the certificate isn't the one that follows */
    JIRRAMBEO_NULL = 255          /* of jirrambeo_call, _check and _verify alone: a pointer is null that must not be */
};

/* Does what the words of `line` ask for, which single spaces part ("infer", "explain root 8", "made 1 100"), on `input`. Returns the status, sets
 * `*text_length` to the length of the text, and puts the text at the front of `room`, or as much of it as there is room for; what is left of
 * `room` stays as it was. Where `*text_length` is above `room_size`, a second call with that much room has the whole text: the same line and input have
 * the same status and text in every call, unless memory runs out. Texts are UTF-8 without a zero byte at their end.
 *
 * What the caller owes, which nothing checks:
 *   - `line`, `input` and `room` have as many bytes as is said, each fewer than 2^63; all are initialised, those of `room` too. Where that is 0
 *     the pointer may be null. `text_length` is never null, and aligned.
 *   - `room` and `*text_length` overlap neither each other nor what is read, and nothing else reads or writes them during the call. Nothing
 *     writes `line` and `input` during the call.
 *   - malloc, realloc and free are of one allocator, may be called by the threads that call this, and align a block to each power of two up to 16
 *     that divides its size.
 *   - The stack has room for the call: hosts/README.md says how much. It isn't called by a signal handler, nor by the child of a fork in a process with
 *     threads.
 *
 * All that it is given stays the caller's. It keeps nothing once it returns: there is no state and nothing to free. Calls may run side by side in
 * any number of threads, each with a room and a text_length of its own. It calls nothing of the caller's but those five functions, never ends the
 * process, starts no thread, opens no file and prints nothing. */
uint8_t jirrambeo_run(const uint8_t *line, size_t line_length, const uint8_t *input, size_t input_length, uint8_t *room, size_t room_size,
                      size_t *text_length);

/* Room as addresses alone: 1 GiB, of which the system gives memory only to what is written, which is the text. So a text that is no longer is computed once.
 * Null where the process may not have so many addresses. */
enum { JIRRAMBEO_ROOM = 1 << 30 };

static inline uint8_t *jirrambeo_room(void) {
    enum { ANONYMOUS = 0x20, NO_RESERVE = 0x4000 }; /* as Linux has them: ISO C hides their names */
    void *room = mmap(NULL, JIRRAMBEO_ROOM, PROT_READ | PROT_WRITE, MAP_PRIVATE | ANONYMOUS | NO_RESERVE, -1, 0);
    return room == MAP_FAILED ? NULL : (uint8_t *)room;
}

/* Where there are no such addresses: room on the heap, which holds most texts. A longer one is computed anew. */
static inline uint8_t jirrambeo_call_in_block(const char *line, const uint8_t *input, size_t input_length, uint8_t **text, size_t *text_length) {
    size_t size = 4096 + 2 * (input_length <= 16777216 ? input_length : 0);
    for (;;) {
        uint8_t *room = (uint8_t *)calloc(size + 1, 1);
        if (room == NULL) {
            *text_length = 0;
            return JIRRAMBEO_MEMORY;
        }
        uint8_t status = jirrambeo_run((const uint8_t *)line, strlen(line), input, input_length, room, size, text_length);
        if (status != JIRRAMBEO_MEMORY && *text_length <= size) {
            *text = room;
            return status;
        }
        free(room);
        if (status == JIRRAMBEO_MEMORY) {
            return status;
        }
        size = *text_length;
    }
}

/* The same, with the text in a block that jirrambeo_free gives back; it has a zero byte behind its `*text_length` bytes. The line ends with a zero byte. The
 * block is null where the status is JIRRAMBEO_MEMORY or JIRRAMBEO_NULL, which comes where `line`, `text` or `text_length` is null, or `input` is though
 * it has a length. */
static inline uint8_t jirrambeo_call(const char *line, const uint8_t *input, size_t input_length, uint8_t **text, size_t *text_length) {
    if (text != NULL) {
        *text = NULL;
    }
    if (text_length != NULL) {
        *text_length = 0;
    }
    if (line == NULL || text == NULL || text_length == NULL || (input == NULL && input_length > 0)) {
        return JIRRAMBEO_NULL;
    }
    uint8_t *room = jirrambeo_room();
    if (room == NULL) {
        return jirrambeo_call_in_block(line, input, input_length, text, text_length);
    }
    uint8_t status = jirrambeo_run((const uint8_t *)line, strlen(line), input, input_length, room, JIRRAMBEO_ROOM, text_length);
    int is_whole = *text_length <= JIRRAMBEO_ROOM;
    if (status != JIRRAMBEO_MEMORY && is_whole) {
        *text = (uint8_t *)malloc(*text_length + 1);
        if (*text == NULL) {
            *text_length = 0;
            status = JIRRAMBEO_MEMORY;
        } else {
            memcpy(*text, room, *text_length);
            (*text)[*text_length] = 0;
        }
    }
    munmap(room, JIRRAMBEO_ROOM);
    return is_whole ? status : jirrambeo_call_in_block(line, input, input_length, text, text_length);
}

/* jirrambeo_call of a line that reads a unit, a newline and a certificate, which this puts together. The first newline ends the unit, so each of the unit's own
 * becomes '\r', which means the same in JSON. The input is a block of this call's, for which JIRRAMBEO_MEMORY may come too. JIRRAMBEO_NULL comes where `line`,
 * `text` or `text_length` is null, or `unit` or `certificate` is though it has a length. */
static inline uint8_t jirrambeo_call_with(const char *line, const uint8_t *unit, size_t unit_length, const uint8_t *certificate, size_t certificate_length,
                                          uint8_t **text, size_t *text_length) {
    if (text != NULL) {
        *text = NULL;
    }
    if (text_length != NULL) {
        *text_length = 0;
    }
    int has_room = line != NULL && text != NULL && text_length != NULL;
    if (!has_room || (unit == NULL && unit_length > 0) || (certificate == NULL && certificate_length > 0)) {
        return JIRRAMBEO_NULL;
    }
    size_t length = unit_length + 1 + certificate_length;
    uint8_t *input = (uint8_t *)malloc(length);
    if (input == NULL) {
        return JIRRAMBEO_MEMORY;
    }
    for (size_t i = 0; i < unit_length; ++i) {
        input[i] = unit[i] == '\n' ? '\r' : unit[i];
    }
    input[unit_length] = '\n';
    if (certificate_length > 0) {
        memcpy(input + unit_length + 1, certificate, certificate_length);
    }
    uint8_t status = jirrambeo_call(line, input, length, text, text_length);
    free(input);
    return status;
}

/* Whether a certificate is accepted for a unit: "check". The certificate is what "certify" writes, or what anybody says in its place. */
static inline uint8_t jirrambeo_check(const uint8_t *unit, size_t unit_length, const uint8_t *certificate, size_t certificate_length, uint8_t **text,
                                      size_t *text_length) {
    return jirrambeo_call_with("check", unit, unit_length, certificate, certificate_length, text, text_length);
}

/* Whether each line of a certificate is the one that follows for a unit: "verify". The certificate is what "brief" writes, or what anybody says in its place. */
static inline uint8_t jirrambeo_verify(const uint8_t *unit, size_t unit_length, const uint8_t *certificate, size_t certificate_length, uint8_t **text,
                                       size_t *text_length) {
    return jirrambeo_call_with("verify", unit, unit_length, certificate, certificate_length, text, text_length);
}

/* Gives back a text of jirrambeo_call, jirrambeo_check or jirrambeo_verify, or null. */
static inline void jirrambeo_free(uint8_t *text) { free(text); }

#ifdef __cplusplus
}
#endif

#endif
