/* A call, and what the addon's files share of it. */
#ifndef CALL_H
#define CALL_H

#include "jirrambeo.h"
#define NAPI_VERSION 8
#include <node_api.h>

/* A call, and what came of it. `words` ends with a zero byte. */
typedef struct {
    char *words;
    const uint8_t *input;
    size_t input_length;
    uint8_t *text;
    size_t text_length;
    uint8_t status;
} Call;

/* Performs the call, on a stack that is long enough for it. Where there is none memory ran out. */
void perform_anywhere(Call *call);

/* [status, text] of a call that ended, or null. */
napi_value answer(napi_env env, const Call *call);

/* Throws a TypeError, and gives null. */
napi_value type_error(napi_env env, const char *message);

/* Throws an Error, and gives null. */
napi_value other_error(napi_env env, const char *message);

/* The words of an argument in a block of the heap. Without such words it throws, and gives null. */
char *words_of(napi_env env, napi_value given);

/* Sets the input of a call to the bytes of an argument. Says whether they are bytes; it throws where they aren't. */
int read_input(napi_env env, napi_value given, Call *call);

typedef struct {
    const uint8_t *at;
    size_t length;
} Bytes;

/* A unit as codes, with the lines that they name. */
typedef struct {
    const int32_t *codes;
    size_t length;
    Bytes texts, strings;
} Codes;

/* Whether they are such as the front end makes: each has those that belong to it, and names a line that is there. Says where memory ran out. */
int are_codes(const Codes *given, int *is_out_of_memory);

/* What such codes stand for, in a block of the heap. Null where memory ran out. */
uint8_t *write_codes(const Codes *given, size_t *length);

/* Of calls.c: begin(words), put(calls, input), putCodes(calls, codes, texts, strings) and answers(calls). */
napi_value begin(napi_env env, napi_callback_info info);
napi_value put(napi_env env, napi_callback_info info);
napi_value put_codes(napi_env env, napi_callback_info info);
napi_value answers(napi_env env, napi_callback_info info);

#endif
