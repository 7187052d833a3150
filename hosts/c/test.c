/* What no proof can say of the archive: how it is called, what a null pointer gets, that it keeps nothing, that threads don't disturb each other, and that
 * each allocation may fail. Usage: test CASES ROUNDS FAILURES, with a file that hosts/cases.py writes, how often each thread makes all calls, and how many
 * allocations of a command fail at most, one a run. Linked with --wrap for the functions of the heap, mmap and the archive's. With NO_ADDRESSES in the
 * environment the process never gets room as addresses alone, which a tool that follows each address would take long for. */
#include "jirrambeo.h"
#include <pthread.h>
#include <stdatomic.h>
#include <stdio.h>

void *__real_malloc(size_t size);
void *__real_calloc(size_t count, size_t size);
void *__real_realloc(void *block, size_t size);
void __real_free(void *block);
static _Thread_local long calls, failing, blocks;

static int fails(void) { return ++calls == failing; }

static void *counted(void *block) {
    blocks += block != NULL;
    return block;
}

void *__wrap_malloc(size_t size) { return fails() ? NULL : counted(__real_malloc(size)); }

void *__wrap_calloc(size_t count, size_t size) { return fails() ? NULL : counted(__real_calloc(count, size)); }

void *__wrap_realloc(void *block, size_t size) {
    if (fails()) {
        return NULL;
    }
    return block == NULL ? counted(__real_realloc(block, size)) : __real_realloc(block, size);
}

void __wrap_free(void *block) {
    blocks -= block != NULL;
    __real_free(block);
}

/* How often the archive was called by a thread, and whether a thread, or the process all the time, has no more addresses. */
static _Thread_local long archive_calls;
static _Thread_local int has_no_addresses;
static int never_has_addresses;

uint8_t __real_jirrambeo_run(const uint8_t *line, size_t line_length, const uint8_t *input, size_t input_length, uint8_t *room, size_t room_size,
                             size_t *text_length);

uint8_t __wrap_jirrambeo_run(const uint8_t *line, size_t line_length, const uint8_t *input, size_t input_length, uint8_t *room, size_t room_size,
                             size_t *text_length) {
    ++archive_calls;
    return __real_jirrambeo_run(line, line_length, input, input_length, room, room_size, text_length);
}

void *__real_mmap(void *near, size_t size, int access, int flags, int file, off_t offset);

void *__wrap_mmap(void *near, size_t size, int access, int flags, int file, off_t offset) {
    return has_no_addresses || (never_has_addresses && size == JIRRAMBEO_ROOM) ? MAP_FAILED : __real_mmap(near, size, access, flags, file, offset);
}

static void expect(int holds, const char *what) {
    if (!holds) {
        fprintf(stderr, "failed: %s\n", what);
        exit(1);
    }
}

struct run {
    uint32_t status, line_length, input_length, text_length;
    char *line;
    const uint8_t *input, *text;
};

static struct run *runs;
static size_t run_count;
static atomic_long done;
static long long_texts;

static const uint8_t *bytes(const char *text) { return (const uint8_t *)text; }

/* The runs of a file. They stay to the end of the process. */
static void read_runs(const char *path) {
    FILE *file = fopen(path, "rb");
    uint32_t head[4];
    expect(file != NULL, "the file of the cases is there");
    while (fread(head, sizeof head, 1, file) == 1) {
        size_t length = (size_t)head[1] + head[2] + head[3];
        uint8_t *part = malloc(length + 1);
        runs = realloc(runs, (run_count + 1) * sizeof *runs);
        expect(part != NULL && runs != NULL && fread(part, 1, length, file) == length, "the file of the cases is whole");
        char *line = calloc(head[1] + 1, 1);
        expect(line != NULL, "memory for the test");
        memcpy(line, part, head[1]);
        runs[run_count++] = (struct run){head[0], head[1], head[2], head[3], line, part + head[1], part + head[1] + head[2]};
    }
    fclose(file);
}

static int is_of_two(const struct run *run) { return strcmp(run->line, "check") == 0 || strcmp(run->line, "verify") == 0; }

/* The call of a run: that of `check` or `verify` by the parts of its input, where it has both. */
static uint8_t called(const struct run *run, uint8_t **text, size_t *length) {
    const uint8_t *cut = is_of_two(run) ? memchr(run->input, '\n', run->input_length) : NULL;
    if (cut == NULL) {
        return jirrambeo_call(run->line, run->input, run->input_length, text, length);
    }
    size_t unit_length = (size_t)(cut - run->input);
    size_t certificate_length = run->input_length - unit_length - 1;
    if (strcmp(run->line, "check") == 0) {
        return jirrambeo_check(run->input, unit_length, cut + 1, certificate_length, text, length);
    }
    return jirrambeo_verify(run->input, unit_length, cut + 1, certificate_length, text, length);
}

static int is_as_ever(const struct run *run, uint8_t status, const uint8_t *text, size_t length) {
    return status == run->status && length == run->text_length && text != NULL && memcmp(text, run->text, length) == 0 && text[length] == 0;
}

static void same(const struct run *run) {
    uint8_t *text;
    size_t length;
    uint8_t status = called(run, &text, &length);
    ++done;
    expect(is_as_ever(run, status, text, length), run->line);
    jirrambeo_free(text);
}

/* A text is computed once, and where the process has no more addresses, anew where it is longer than most. */
static void once(const struct run *run) {
    archive_calls = 0;
    same(run);
    expect(archive_calls == 1 || never_has_addresses, "a text is computed once");
    archive_calls = 0;
    has_no_addresses = 1;
    same(run);
    has_no_addresses = 0;
    int is_long = !is_of_two(run) && run->text_length > 4096 + 2 * (run->input_length <= 16777216 ? run->input_length : 0);
    expect(archive_calls == 1 + is_long, "a text without addresses");
    long_texts += is_long;
}

/* What `certify` and `brief` write of a unit is accepted, also of a unit with newlines. */
static void accepted(const struct run *run) {
    uint8_t *text;
    size_t length;
    int is_certificate = strcmp(run->line, "certify") == 0, is_brief = strcmp(run->line, "brief") == 0;
    if ((!is_certificate && !is_brief) || run->status != JIRRAMBEO_DONE) {
        return;
    }
    uint8_t status = is_brief ? jirrambeo_verify(run->input, run->input_length, run->text, run->text_length, &text, &length)
                              : jirrambeo_check(run->input, run->input_length, run->text, run->text_length, &text, &length);
    expect(status == JIRRAMBEO_DONE, "a certificate is accepted");
    expect(length > 9 && memcmp(text, "accepted ", 9) == 0, "what is said of a certificate that is accepted");
    jirrambeo_free(text);
}

static void *each_again(void *rounds) {
    for (int round = 0; round < *(int *)rounds; ++round) {
        for (size_t i = 0; i < run_count; ++i) {
            if (runs[i].input_length < 65536) {
                same(&runs[i]);
            }
        }
    }
    expect(blocks == 0, "no block is left of a thread's calls");
    return NULL;
}

static void threads(int rounds) {
    pthread_t all[4];
    for (int i = 0; i < 4; ++i) {
        expect(pthread_create(&all[i], NULL, each_again, &rounds) == 0, "a thread for the test");
    }
    for (int i = 0; i < 4; ++i) {
        expect(pthread_join(all[i], NULL) == 0, "a thread's end");
    }
}

static void rooms(void) {
    char room[40], less[4] = "....";
    size_t length = 7;
    memset(room, '.', sizeof room);
    expect(jirrambeo_run(bytes("infer"), 5, NULL, 0, (uint8_t *)room, sizeof room, &length) == JIRRAMBEO_NOT_JSON && length == 16, "no input");
    expect(memcmp(room, "refused NotJson\n........................", sizeof room) == 0, "the line of a refusal, and what was behind it");
    expect(jirrambeo_run(bytes("--version"), 9, NULL, 0, (uint8_t *)less, 3, &length) == JIRRAMBEO_DONE && length == 16, "too little room");
    expect(memcmp(less, "jir.", 4) == 0, "a front of the text");
    expect(jirrambeo_run(NULL, 0, NULL, 0, NULL, 0, &length) == JIRRAMBEO_WORDS && length == 14, "null pointers without bytes");
    expect(jirrambeo_run(bytes("infer\xff"), 6, NULL, 0, NULL, 0, &length) == JIRRAMBEO_WORDS, "a line that isn't UTF-8");
    expect(jirrambeo_run(bytes(" infer"), 6, NULL, 0, NULL, 0, &length) == JIRRAMBEO_WORDS, "a space before the word");
    expect(jirrambeo_run(bytes("made  1 1"), 9, NULL, 0, NULL, 0, &length) == JIRRAMBEO_WORDS, "two spaces between words");
}

static void nulls(void) {
    uint8_t *text = (uint8_t *)"";
    size_t length = 7;
    expect(jirrambeo_call("infer", NULL, 2, &text, &length) == JIRRAMBEO_NULL && text == NULL && length == 0, "a null input with a length");
    expect(jirrambeo_call(NULL, bytes("{}"), 2, &text, &length) == JIRRAMBEO_NULL, "a null line");
    expect(jirrambeo_call("infer", bytes("{}"), 2, NULL, &length) == JIRRAMBEO_NULL, "nowhere to put the text");
    expect(jirrambeo_call("infer", bytes("{}"), 2, &text, NULL) == JIRRAMBEO_NULL, "nowhere to put its length");
    expect(jirrambeo_call("infer", NULL, 0, &text, &length) == JIRRAMBEO_NOT_JSON && length == 16, "a null input without a length");
    jirrambeo_free(text);
    jirrambeo_free(NULL);
    expect(jirrambeo_check(NULL, 2, NULL, 0, &text, &length) == JIRRAMBEO_NULL && text == NULL && length == 0, "a null unit with a length");
    expect(jirrambeo_check(bytes("{}"), 2, NULL, 2, &text, &length) == JIRRAMBEO_NULL, "a null certificate with a length");
    expect(jirrambeo_check(bytes("{}"), 2, NULL, 0, NULL, &length) == JIRRAMBEO_NULL, "nowhere to put what is said of a certificate");
    expect(jirrambeo_check(bytes("{}"), 2, NULL, 0, &text, NULL) == JIRRAMBEO_NULL, "nowhere to put how long that is");
    expect(jirrambeo_check(NULL, 0, NULL, 0, &text, &length) == JIRRAMBEO_NOT_JSON && length == 16, "a null unit and certificate without lengths");
    jirrambeo_free(text);
    expect(jirrambeo_check(bytes("{\n}"), 3, NULL, 0, &text, &length) == JIRRAMBEO_NOT_UNIT, "a newline of a unit doesn't end it");
    jirrambeo_free(text);
    expect(jirrambeo_call_with(NULL, bytes("{}"), 2, NULL, 0, &text, &length) == JIRRAMBEO_NULL && text == NULL && length == 0, "a null line of two inputs");
    expect(jirrambeo_verify(NULL, 2, NULL, 0, &text, &length) == JIRRAMBEO_NULL && text == NULL && length == 0, "a null unit with a length, to verify");
    expect(jirrambeo_verify(bytes("{\n}"), 3, NULL, 0, &text, &length) == JIRRAMBEO_NOT_UNIT, "a newline of a unit that is verified");
    jirrambeo_free(text);
}

static void limits(void) {
    size_t most = 16777216, length;
    uint8_t *text, *input = malloc(most + 1);
    expect(input != NULL, "memory for the test");
    memset(input, ' ', most + 1);
    expect(jirrambeo_call("infer", input, most, &text, &length) == JIRRAMBEO_NOT_JSON, "the longest input");
    jirrambeo_free(text);
    expect(jirrambeo_call("infer", input, most + 1, &text, &length) == JIRRAMBEO_TOO_LONG, "an input that is too long");
    jirrambeo_free(text);
    expect(jirrambeo_check(bytes("{}"), 2, input, most, &text, &length) == JIRRAMBEO_TOO_LONG, "a unit and a certificate that are too long together");
    jirrambeo_free(text);
    free(input);
}

/* Each allocation of a run fails once, or so many of them, evenly spread: the status says so and there is no text, or the run ends as without a failure;
 * no block is left. */
static long failures(const struct run *run, long most) {
    uint8_t *text;
    size_t length;
    calls = blocks = 0;
    same(run);
    expect(blocks == 0, "no block is left");
    long all = calls, step = all / most + 1, tried = 0;
    for (long at = 1; at <= all; at += step) {
        ++tried;
        calls = 0;
        failing = at;
        uint8_t status = called(run, &text, &length);
        failing = 0;
        // A list that can't be made smaller stays as it is, so a run may also end as without a failure.
        int is_memory = status == JIRRAMBEO_MEMORY && text == NULL && length == 0;
        int is_same = is_as_ever(run, status, text, length);
        jirrambeo_free(text);
        expect((is_memory || is_same) && blocks == 0, "a run that had too little memory says so or ends as ever, and leaves nothing");
    }
    return tried;
}

/* The first run of a command that ends well and has a small unit. */
static long failures_of(const char *word, long most) {
    for (size_t i = 0; i < run_count; ++i) {
        int is_asked = strncmp(runs[i].line, word, strlen(word)) == 0;
        if (is_asked && runs[i].status == JIRRAMBEO_DONE && runs[i].input_length < 2000) {
            return failures(&runs[i], most);
        }
    }
    return 0;
}

int main(int count, char **words) {
    expect(count == 4, "usage: test CASES ROUNDS FAILURES");
    never_has_addresses = getenv("NO_ADDRESSES") != NULL;
    read_runs(words[1]);
    rooms();
    nulls();
    limits();
    for (size_t i = 0; i < run_count; ++i) {
        once(&runs[i]);
        accepted(&runs[i]);
    }
    static const char *const commands[] = {"infer", "certify", "brief", "lint", "explain", "plain", "check", "verify", "made"};
    long failed = 0;
    for (size_t i = 0; i < sizeof commands / sizeof *commands; ++i) {
        failed += failures_of(commands[i], atol(words[3]));
    }
    threads(atoi(words[2]));
    printf("hosts: C: %ld calls with the program's own text, most from four threads; %ld calls in which an allocation failed; %ld texts that were longer than most, "
           "computed once\n", (long)done, failed, long_texts);
    for (size_t i = 0; i < run_count; ++i) {
        free((void *)(uintptr_t)(runs[i].input - runs[i].line_length));
        free(runs[i].line);
    }
    free(runs);
    return 0;
}
