/* The library as an addon for Node, over Node-API: the functions below, which index.js makes the commands of.
 *
 *   run(words, input)        does what the words ask for on the bytes of `input`, and gives [status, text]
 *   runAsync(words, input)   the same on a thread of libuv's pool; gives a promise
 *   begin(words)             calls that run on threads of their own while the caller goes on (calls.c)
 *   put(calls, input)        one more of them
 *   putCodes(calls, codes, texts, strings)   the same, whose input the front end's codes stand for (codes.c)
 *   answers(calls)           [status, text] of each of them, in their order, once all have ended
 *
 * `words` is a string and `input` a Uint8Array, as `texts` and `strings` are; `codes` is an Int32Array; a text is a Buffer. Else they throw a TypeError. Nothing is kept between calls, so any number of environments
 * (worker threads) may load this at once. */
#include "call.h"
#include <pthread.h>

enum { MOST_WORDS = 4096, STACK = 1 << 29, SHALLOW = 24 };

static void *perform(void *given) {
    Call *call = (Call *)given;
    call->status = jirrambeo_call(call->words, call->input, call->input_length, &call->text, &call->text_length);
    return NULL;
}

/* Whether brackets stand so deeply in each other, texts read as they are. What a call takes of the stack goes by it. */
static int is_deep(const uint8_t *input, size_t length) {
    size_t depth = 0;
    for (size_t i = 0; i < length; ++i) {
        if (input[i] == '[' || input[i] == '{') {
            if (++depth > SHALLOW) {
                return 1;
            }
        } else if ((input[i] == ']' || input[i] == '}') && depth > 0) {
            --depth;
        }
    }
    return 0;
}

/* Performs the call, and one of a deep input on a stack of its own: neither the main thread's stack nor that of a worker or of the pool is long for certain.
 * The stack is addresses alone as far as it isn't used. Where there is no such thread memory ran out. */
void perform_anywhere(Call *call) {
    pthread_t thread;
    pthread_attr_t attributes;
    if (!is_deep(call->input, call->input_length)) {
        perform(call);
        return;
    }
    call->status = JIRRAMBEO_MEMORY;
    if (pthread_attr_init(&attributes) != 0) {
        return;
    }
    if (pthread_attr_setstacksize(&attributes, STACK) == 0 && pthread_create(&thread, &attributes, perform, call) == 0) {
        pthread_join(thread, NULL);
    }
    pthread_attr_destroy(&attributes);
}

static void release(Call *call) {
    free(call->words);
    jirrambeo_free(call->text);
}

napi_value type_error(napi_env env, const char *message) {
    napi_throw_type_error(env, "ERR_INVALID_ARG_TYPE", message);
    return NULL;
}

napi_value other_error(napi_env env, const char *message) {
    napi_throw_error(env, NULL, message);
    return NULL;
}

char *words_of(napi_env env, napi_value given) {
    napi_valuetype type;
    size_t length;
    if (napi_typeof(env, given, &type) != napi_ok || type != napi_string || napi_get_value_string_utf8(env, given, NULL, 0, &length) != napi_ok ||
        length > MOST_WORDS) {
        type_error(env, "the words are a string");
        return NULL;
    }
    char *words = (char *)malloc(length + 1);
    if (words == NULL || napi_get_value_string_utf8(env, given, words, length + 1, &length) != napi_ok) {
        free(words);
        other_error(env, "memory ran out");
        return NULL;
    }
    if (strlen(words) != length) {
        free(words);
        type_error(env, "the words have a zero character");
        return NULL;
    }
    return words;
}

int read_input(napi_env env, napi_value given, Call *call) {
    bool is_array = false;
    napi_typedarray_type type;
    void *input = NULL;
    if (napi_is_typedarray(env, given, &is_array) != napi_ok || !is_array ||
        napi_get_typedarray_info(env, given, &type, &call->input_length, &input, NULL, NULL) != napi_ok || type != napi_uint8_array) {
        type_error(env, "the input is a Uint8Array");
        return 0;
    }
    call->input = input == NULL ? (const uint8_t *)"" : (const uint8_t *)input;
    return 1;
}

/* Reads the two arguments. Says whether it could; where it couldn't it threw. */
static int read_arguments(napi_env env, napi_callback_info info, napi_value arguments[2], Call *call) {
    size_t count = 2;
    memset(call, 0, sizeof *call);
    if (napi_get_cb_info(env, info, &count, arguments, NULL, NULL) != napi_ok || !read_input(env, arguments[1], call)) {
        return 0;
    }
    call->words = words_of(env, arguments[0]);
    return call->words != NULL;
}

napi_value answer(napi_env env, const Call *call) {
    napi_value pair, status, text;
    if (napi_create_array_with_length(env, 2, &pair) != napi_ok || napi_create_uint32(env, call->status, &status) != napi_ok ||
        napi_create_buffer_copy(env, call->text == NULL ? 0 : call->text_length, call->text, NULL, &text) != napi_ok ||
        napi_set_element(env, pair, 0, status) != napi_ok || napi_set_element(env, pair, 1, text) != napi_ok) {
        return NULL;
    }
    return pair;
}

static napi_value run(napi_env env, napi_callback_info info) {
    Call call;
    napi_value arguments[2], pair = NULL;
    if (!read_arguments(env, info, arguments, &call)) {
        return NULL;
    }
    perform_anywhere(&call);
    pair = answer(env, &call);
    release(&call);
    return pair;
}

/* A call on the pool. It has a copy of the input, which nobody writes meanwhile. */
typedef struct {
    Call call;
    uint8_t *copy;
    napi_async_work work;
    napi_deferred deferred;
} Work;

static void release_work(Work *work) {
    release(&work->call);
    free(work->copy);
    free(work);
}

static void on_pool(napi_env env, void *given) {
    (void)env;
    perform_anywhere(&((Work *)given)->call);
}

/* Back on the thread of the environment. One that is ending may refuse each call: then nobody waits for the promise either. */
static void on_end(napi_env env, napi_status status, void *given) {
    Work *work = (Work *)given;
    napi_value pair = status == napi_ok ? answer(env, &work->call) : NULL;
    napi_value message, error;
    if (pair != NULL) {
        napi_resolve_deferred(env, work->deferred, pair);
    } else if (napi_create_string_utf8(env, "the call was given up", NAPI_AUTO_LENGTH, &message) == napi_ok &&
               napi_create_error(env, NULL, message, &error) == napi_ok) {
        napi_reject_deferred(env, work->deferred, error);
    }
    napi_delete_async_work(env, work->work);
    release_work(work);
}

static Work *work_of(const Call *call) {
    Work *work = (Work *)calloc(1, sizeof *work);
    uint8_t *copy = (uint8_t *)malloc(call->input_length + 1);
    if (work == NULL || copy == NULL) {
        free(work);
        free(copy);
        return NULL;
    }
    memcpy(copy, call->input, call->input_length);
    work->call = *call;
    work->call.input = work->copy = copy;
    return work;
}

static napi_value run_async(napi_env env, napi_callback_info info) {
    Call call;
    napi_value arguments[2], promise, name;
    if (!read_arguments(env, info, arguments, &call)) {
        return NULL;
    }
    Work *work = work_of(&call);
    if (work == NULL) {
        release(&call);
        return other_error(env, "memory ran out");
    }
    if (napi_create_string_utf8(env, "jirrambeo", NAPI_AUTO_LENGTH, &name) != napi_ok ||
        napi_create_async_work(env, NULL, name, on_pool, on_end, work, &work->work) != napi_ok) {
        release_work(work);
        return other_error(env, "the call can't be queued");
    }
    if (napi_create_promise(env, &work->deferred, &promise) != napi_ok || napi_queue_async_work(env, work->work) != napi_ok) {
        napi_delete_async_work(env, work->work);
        release_work(work);
        return other_error(env, "the call can't be queued");
    }
    return promise;
}

static napi_value initialise(napi_env env, napi_value exports) {
    napi_property_descriptor functions[] = {
        {"run", NULL, run, NULL, NULL, NULL, napi_enumerable, NULL},
        {"runAsync", NULL, run_async, NULL, NULL, NULL, napi_enumerable, NULL},
        {"begin", NULL, begin, NULL, NULL, NULL, napi_enumerable, NULL},
        {"put", NULL, put, NULL, NULL, NULL, napi_enumerable, NULL},
        {"putCodes", NULL, put_codes, NULL, NULL, NULL, napi_enumerable, NULL},
        {"answers", NULL, answers, NULL, NULL, NULL, napi_enumerable, NULL},
    };
    napi_define_properties(env, exports, sizeof functions / sizeof *functions, functions);
    return exports;
}

NAPI_MODULE_INIT() { return initialise(env, exports); }
