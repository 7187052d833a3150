/* What frontend/src/codes.js makes of a unit, to the bytes for which it stands. A code from 0 is that number; others are below. Texts and strings are lines, and
 * a text has holes for numbers, which stand behind its code. */
#include "call.h"

enum { QUOTED = -1, JSON_TEXT = -2, FIRST_TEXT = -3, MOST_DIGITS = 10, HOLE = '%' };

/* How many lines the bytes are. */
static size_t lines_in(const Bytes *bytes) {
    size_t count = 1;
    for (size_t i = 0; i < bytes->length; ++i) {
        count += bytes->at[i] == '\n';
    }
    return count;
}

/* Where the lines of the bytes begin, and behind the last one. Null where memory ran out. */
static size_t *begins_of(const Bytes *bytes, size_t count) {
    size_t *begins = (size_t *)malloc((count + 1) * sizeof *begins);
    if (begins == NULL) {
        return NULL;
    }
    size_t number = 0;
    begins[number++] = 0;
    for (size_t i = 0; i < bytes->length; ++i) {
        if (bytes->at[i] == '\n') {
            begins[number++] = i + 1;
        }
    }
    begins[number] = bytes->length + 1;
    return begins;
}

/* How many holes each of the lines has. Null where memory ran out. */
static size_t *holes_of(const Bytes *bytes, size_t count) {
    size_t *holes = (size_t *)calloc(count, sizeof *holes);
    size_t number = 0;
    for (size_t i = 0; holes != NULL && i < bytes->length; ++i) {
        holes[number] += bytes->at[i] == HOLE;
        number += bytes->at[i] == '\n';
    }
    return holes;
}

/* Which text a code is. */
static size_t text_of(int32_t code) {
    return (size_t)((int64_t)FIRST_TEXT - code);
}

/* Whether the codes from this one on, of which so many are left, begin with a whole one; and how many more belong to it. */
static int is_whole(const int32_t *code, size_t left, const size_t *holes, size_t texts, size_t strings, size_t *count) {
    *count = 0;
    if (*code >= 0) {
        return 1;
    }
    if (*code <= FIRST_TEXT && text_of(*code) >= texts) {
        return 0;
    }
    *count = *code <= FIRST_TEXT ? holes[text_of(*code)] : 1;
    if (left - 1 < *count) {
        return 0;
    }
    for (size_t k = 1; k <= *count; ++k) {
        if (code[k] < 0) {
            return 0;
        }
    }
    return *code <= FIRST_TEXT || (size_t)code[1] < strings;
}

int are_codes(const Codes *given, int *is_out_of_memory) {
    size_t texts = lines_in(&given->texts), strings = lines_in(&given->strings), count = 0;
    size_t *holes = holes_of(&given->texts, texts);
    *is_out_of_memory = holes == NULL;
    if (holes == NULL) {
        return 0;
    }
    int are = 1;
    for (size_t i = 0; are && i < given->length; i += 1 + count) {
        are = is_whole(given->codes + i, given->length - i, holes, texts, strings, &count);
    }
    free(holes);
    return are;
}

/* The bytes, in a block that grows. */
typedef struct {
    uint8_t *block;
    size_t length, room;
} Out;

/* Room for so many bytes more. Says whether there is. */
static int reserve(Out *out, size_t more) {
    if (out->room - out->length >= more) {
        return 1;
    }
    size_t room = 2 * out->room + more;
    uint8_t *block = (uint8_t *)realloc(out->block, room);
    if (block == NULL) {
        return 0;
    }
    out->block = block;
    out->room = room;
    return 1;
}

/* Puts a number there, for which there is room. */
static void put_number(Out *out, uint32_t number) {
    size_t count = 1;
    for (uint32_t least = 10; count < MOST_DIGITS && number >= least; least *= 10) {
        ++count;
    }
    uint8_t *at = out->block + out->length + count;
    out->length += count;
    do {
        *--at = (uint8_t)('0' + number % 10);
        number /= 10;
    } while (number > 0);
}

/* Puts a line there, between quotes or not. Says whether there was memory. */
static int put_line(Out *out, const Bytes *bytes, const size_t *begins, size_t number, int is_quoted) {
    size_t size = begins[number + 1] - 1 - begins[number];
    if (!reserve(out, size + 2)) {
        return 0;
    }
    uint8_t *at = out->block + out->length;
    if (is_quoted) {
        *at++ = '"';
    }
    if (size > 0) {
        memcpy(at, bytes->at + begins[number], size);
        at += size;
    }
    if (is_quoted) {
        *at++ = '"';
    }
    out->length = (size_t)(at - out->block);
    return 1;
}

/* Puts a text there, with the numbers of its holes, and tells how many these are. Says whether there was memory. */
static int put_text(Out *out, const Bytes *bytes, const size_t *begins, const int32_t *code, size_t *count) {
    size_t number = text_of(*code);
    size_t size = begins[number + 1] - 1 - begins[number];
    const uint8_t *text = bytes->at + begins[number];
    if (!reserve(out, size * MOST_DIGITS)) {
        return 0;
    }
    for (size_t i = 0; i < size; ++i) {
        if (text[i] == HOLE) {
            put_number(out, (uint32_t)code[++*count]);
        } else {
            out->block[out->length++] = text[i];
        }
    }
    return 1;
}

/* Puts there what a code and those that belong to it stand for, and tells how many these are. Says whether there was memory. */
static int put_code(Out *out, const Codes *given, const size_t *texts, const size_t *strings, const int32_t *code, size_t *count) {
    *count = 0;
    if (*code <= FIRST_TEXT) {
        return put_text(out, &given->texts, texts, code, count);
    }
    if (*code < 0) {
        *count = 1;
        return put_line(out, &given->strings, strings, (size_t)code[1], *code == QUOTED);
    }
    if (!reserve(out, MOST_DIGITS)) {
        return 0;
    }
    put_number(out, (uint32_t)*code);
    return 1;
}

/* The same of all codes. */
static int put_all(Out *out, const Codes *given, const size_t *texts, const size_t *strings) {
    size_t count = 0;
    for (size_t i = 0; i < given->length; i += 1 + count) {
        if (!put_code(out, given, texts, strings, given->codes + i, &count)) {
            return 0;
        }
    }
    return 1;
}

uint8_t *write_codes(const Codes *given, size_t *length) {
    size_t *texts = begins_of(&given->texts, lines_in(&given->texts));
    size_t *strings = begins_of(&given->strings, lines_in(&given->strings));
    Out out = {NULL, 0, 12 * given->length + 1};
    out.block = (uint8_t *)malloc(out.room);
    int is_written = texts != NULL && strings != NULL && out.block != NULL && put_all(&out, given, texts, strings);
    free(texts);
    free(strings);
    if (!is_written) {
        free(out.block);
        return NULL;
    }
    *length = out.length;
    return out.block;
}
