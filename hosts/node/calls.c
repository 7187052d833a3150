/* Calls that run on threads of their own while the caller goes on. They are begun with the words, put in one by one, and their answers are asked for together, in
 * the same order; who asks takes part in what is left. No thread is there before a call is, or once the answers are. */
#include "call.h"
#include <pthread.h>
#include <unistd.h>

/* What a thread is counted as where the collector is told how much stands outside its heap, in bytes. */
enum { MOST_THREADS = 4, OF_A_THREAD = 1 << 16 };

typedef struct Item {
    struct Item *next;
    Call call;
    Codes codes;      /* what the input stands as until a thread has the call; none where it is the bytes */
    uint8_t copies[]; /* of what was given, which nobody writes meanwhile */
} Item;

/* All calls stand from `first` to `last`, and from `waiting` on those that no thread has taken. */
typedef struct {
    char *words;
    Item *first, *last, *waiting;
    uint32_t count;
    int64_t told; /* how much the collector knows of, in bytes */
    pthread_mutex_t lock;
    pthread_cond_t change; /* a call was put in, or none will be */
    int is_closed, idle, threads;
    pthread_t thread[MOST_THREADS];
} Calls;

static const napi_type_tag CALLS = {0x6a697272616d6265, 0x6f2d2d63616c6c73};

/* The next call that nobody has taken; null once no more will come. */
static Item *taken(Calls *calls) {
    pthread_mutex_lock(&calls->lock);
    ++calls->idle;
    while (calls->waiting == NULL && !calls->is_closed) {
        pthread_cond_wait(&calls->change, &calls->lock);
    }
    --calls->idle;
    Item *item = calls->waiting;
    if (item != NULL) {
        calls->waiting = item->next;
    }
    pthread_mutex_unlock(&calls->lock);
    return item;
}

/* Performs the call of an item, whose input is written first where it stands as codes. */
static void perform(Item *item) {
    uint8_t *written = NULL;
    if (item->codes.codes != NULL) {
        written = write_codes(&item->codes, &item->call.input_length);
        if (written == NULL) {
            item->call.status = JIRRAMBEO_MEMORY;
            return;
        }
        item->call.input = written;
    }
    perform_anywhere(&item->call);
    free(written);
}

static void *work(void *given) {
    Calls *calls = (Calls *)given;
    for (Item *item = taken(calls); item != NULL; item = taken(calls)) {
        perform(item);
    }
    return NULL;
}

static int most_threads(void) {
    long processors = sysconf(_SC_NPROCESSORS_ONLN);
    return processors < 1 ? 1 : processors < MOST_THREADS ? (int)processors : MOST_THREADS;
}

/* Puts a call behind all others, for a thread that has nothing to do, or a new one. Where there can be none who asks for the answers performs it. */
static void append(Calls *calls, Item *item) {
    pthread_mutex_lock(&calls->lock);
    if (calls->last == NULL) {
        calls->first = item;
    } else {
        calls->last->next = item;
    }
    calls->last = item;
    if (calls->waiting == NULL) {
        calls->waiting = item;
    }
    ++calls->count;
    int is_new = calls->idle == 0 && calls->threads < most_threads();
    pthread_cond_signal(&calls->change);
    pthread_mutex_unlock(&calls->lock);
    if (is_new && pthread_create(&calls->thread[calls->threads], NULL, work, calls) == 0) {
        ++calls->threads;
    }
}

/* Ends all threads once they have done what they took. Unless all calls are wanted, no other is begun. */
static void end(Calls *calls, int wants_all) {
    pthread_mutex_lock(&calls->lock);
    calls->is_closed = 1;
    if (!wants_all) {
        calls->waiting = NULL;
    }
    pthread_cond_broadcast(&calls->change);
    pthread_mutex_unlock(&calls->lock);
    work(calls);
    while (calls->threads > 0) {
        pthread_join(calls->thread[--calls->threads], NULL);
    }
}

/* Tells the collector that so much more stands outside its heap, or less. Without that it would leave calls whose answers nobody asks for, with their threads. */
static void tell(napi_env env, Calls *calls, int64_t more) {
    int64_t all;
    if (napi_adjust_external_memory(env, more, &all) == napi_ok) {
        calls->told += more;
    }
}

/* Gives back all calls, which have ended. */
static void clear(napi_env env, Calls *calls) {
    for (Item *item = calls->first, *next; item != NULL; item = next) {
        next = item->next;
        jirrambeo_free(item->call.text);
        free(item);
    }
    calls->first = NULL;
    tell(env, calls, -calls->told);
}

static void finalize(napi_env env, void *given, void *hint) {
    (void)hint;
    Calls *calls = (Calls *)given;
    end(calls, 0);
    clear(env, calls);
    pthread_cond_destroy(&calls->change);
    pthread_mutex_destroy(&calls->lock);
    free(calls->words);
    free(calls);
}

napi_value begin(napi_env env, napi_callback_info info) {
    size_t count = 1;
    napi_value argument, handle;
    if (napi_get_cb_info(env, info, &count, &argument, NULL, NULL) != napi_ok) {
        return NULL;
    }
    char *words = words_of(env, argument);
    if (words == NULL) {
        return NULL;
    }
    Calls *calls = (Calls *)calloc(1, sizeof *calls);
    if (calls == NULL) {
        free(words);
        return other_error(env, "memory ran out");
    }
    calls->words = words;
    pthread_mutex_init(&calls->lock, NULL); /* neither fails on Linux */
    pthread_cond_init(&calls->change, NULL);
    if (napi_create_object(env, &handle) != napi_ok || napi_type_tag_object(env, handle, &CALLS) != napi_ok ||
        napi_wrap(env, handle, calls, finalize, NULL, NULL) != napi_ok) {
        finalize(env, calls, NULL);
        return NULL;
    }
    return handle;
}

/* The calls that the first argument is, of which more are wanted. Without such it throws, and gives null. */
static Calls *calls_of(napi_env env, size_t wanted, napi_value *arguments, napi_callback_info info) {
    size_t count = wanted;
    bool is_ours = false;
    void *calls = NULL;
    napi_valuetype type;
    if (napi_get_cb_info(env, info, &count, arguments, NULL, NULL) != napi_ok || napi_typeof(env, arguments[0], &type) != napi_ok || type != napi_object ||
        napi_check_object_type_tag(env, arguments[0], &CALLS, &is_ours) != napi_ok || !is_ours || napi_unwrap(env, arguments[0], &calls) != napi_ok) {
        type_error(env, "the calls are what was begun");
        return NULL;
    }
    if (((Calls *)calls)->is_closed) {
        other_error(env, "the answers were asked for");
        return NULL;
    }
    return (Calls *)calls;
}

/* An item with room for so many bytes. Where there is none it throws, and gives null. */
static Item *item_with(napi_env env, const Calls *calls, size_t room) {
    Item *item = (Item *)malloc(sizeof *item + room);
    if (item == NULL) {
        other_error(env, "memory ran out");
        return NULL;
    }
    *item = (Item){.call = {.words = calls->words}};
    return item;
}

/* Puts in the call of an item with so many bytes, and tells the collector of them. */
static void put_item(napi_env env, Calls *calls, Item *item, size_t room) {
    int threads = calls->threads;
    append(calls, item);
    tell(env, calls, (int64_t)(sizeof *item + room) + (calls->threads - threads) * OF_A_THREAD);
}

napi_value put(napi_env env, napi_callback_info info) {
    napi_value arguments[2];
    Call call = {0};
    Calls *calls = calls_of(env, 2, arguments, info);
    if (calls == NULL || !read_input(env, arguments[1], &call)) {
        return NULL;
    }
    Item *item = item_with(env, calls, call.input_length);
    if (item == NULL) {
        return NULL;
    }
    memcpy(item->copies, call.input, call.input_length);
    item->call.input = item->copies;
    item->call.input_length = call.input_length;
    put_item(env, calls, item, call.input_length);
    return NULL;
}

/* Reads codes, texts and strings. Says whether they are such; it throws where they aren't. */
static int read_codes(napi_env env, const napi_value arguments[3], Codes *given) {
    bool is_array = false;
    napi_typedarray_type type;
    void *codes = NULL;
    Call texts = {0}, strings = {0};
    if (napi_is_typedarray(env, arguments[0], &is_array) != napi_ok || !is_array ||
        napi_get_typedarray_info(env, arguments[0], &type, &given->length, &codes, NULL, NULL) != napi_ok || type != napi_int32_array) {
        type_error(env, "the codes are an Int32Array");
        return 0;
    }
    if (!read_input(env, arguments[1], &texts) || !read_input(env, arguments[2], &strings)) {
        return 0;
    }
    given->codes = (const int32_t *)codes;
    given->texts = (Bytes){texts.input, texts.input_length};
    given->strings = (Bytes){strings.input, strings.input_length};
    return 1;
}

/* A copy of the bytes. */
static Bytes copied(const Bytes *bytes, uint8_t *to) {
    memcpy(to, bytes->at, bytes->length);
    return (Bytes){to, bytes->length};
}

napi_value put_codes(napi_env env, napi_callback_info info) {
    napi_value arguments[4];
    Codes given = {0};
    Calls *calls = calls_of(env, 4, arguments, info);
    if (calls == NULL || !read_codes(env, arguments + 1, &given)) {
        return NULL;
    }
    int is_out_of_memory = 0;
    if (!are_codes(&given, &is_out_of_memory)) {
        return is_out_of_memory ? other_error(env, "memory ran out") : type_error(env, "the codes are those of the front end");
    }
    size_t size = given.length * sizeof *given.codes;
    size_t room = size + given.texts.length + given.strings.length;
    Item *item = item_with(env, calls, room);
    if (item == NULL) {
        return NULL;
    }
    if (size > 0) {
        memcpy(item->copies, given.codes, size);
    }
    item->codes.codes = (const int32_t *)(const void *)item->copies;
    item->codes.length = given.length;
    item->codes.texts = copied(&given.texts, item->copies + size);
    item->codes.strings = copied(&given.strings, item->copies + size + given.texts.length);
    put_item(env, calls, item, room);
    return NULL;
}

napi_value answers(napi_env env, napi_callback_info info) {
    napi_value argument, list, pair;
    Calls *calls = calls_of(env, 1, &argument, info);
    if (calls == NULL) {
        return NULL;
    }
    end(calls, 1);
    if (napi_create_array_with_length(env, calls->count, &list) != napi_ok) {
        return NULL;
    }
    uint32_t number = 0;
    for (Item *item = calls->first; item != NULL; item = item->next) {
        pair = answer(env, &item->call);
        jirrambeo_free(item->call.text);
        item->call.text = NULL;
        if (pair == NULL || napi_set_element(env, list, number++, pair) != napi_ok) {
            return NULL;
        }
    }
    clear(env, calls);
    return list;
}
