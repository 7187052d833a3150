/* What a call costs: the least of several batches, in microseconds of processor time, and how much stack it takes. Usage: cost UNIT.json.. for calls of
 * `infer`, cost --started PROGRAM UNIT.json.. for a process that is started for each, cost --stack UNIT.json.. for the most stack that a command takes. */
#define _GNU_SOURCE
#include "jirrambeo.h"
#include <fcntl.h>
#include <pthread.h>
#include <spawn.h>
#include <stdio.h>
#include <sys/resource.h>
#include <sys/wait.h>
#include <unistd.h>

extern char **environ;

static double microseconds(int who) {
    struct rusage used;
    getrusage(who, &used);
    return 1e6 * (double)(used.ru_utime.tv_sec + used.ru_stime.tv_sec) + (double)(used.ru_utime.tv_usec + used.ru_stime.tv_usec);
}

static double now(void) { return microseconds(RUSAGE_SELF) + microseconds(RUSAGE_CHILDREN); }

static uint8_t input[1 << 24];

static void call(size_t length) {
    uint8_t *text;
    size_t text_length;
    jirrambeo_call("infer", input, length, &text, &text_length);
    jirrambeo_free(text);
}

static void start(char *program, const char *path) {
    pid_t child;
    int status;
    char *words[] = {program, "infer", NULL};
    posix_spawn_file_actions_t streams;
    posix_spawn_file_actions_init(&streams);
    posix_spawn_file_actions_addopen(&streams, 0, path, O_RDONLY, 0);
    posix_spawn_file_actions_addopen(&streams, 1, "/dev/null", O_WRONLY, 0);
    if (posix_spawn(&child, program, &streams, NULL, words, environ) != 0 || waitpid(child, &status, 0) < 0) {
        exit(1);
    }
    posix_spawn_file_actions_destroy(&streams);
}

/* How much of a thread's stack the commands take: what isn't as it was painted. */
enum { STACK = 1 << 28, PAINT = 0xA5 };

static void *all_commands(void *length) {
    static const char *const lines[] = {"infer", "lint", "plain", "explain root 1", "explain root"};
    uint8_t *text, *certificate;
    size_t unit_length = *(size_t *)length, text_length, certificate_length;
    for (size_t i = 0; i < sizeof lines / sizeof *lines; ++i) {
        jirrambeo_call(lines[i], input, unit_length, &text, &text_length);
        jirrambeo_free(text);
    }
    jirrambeo_call("certify", input, unit_length, &certificate, &certificate_length);
    jirrambeo_check(input, unit_length, certificate, certificate_length, &text, &text_length);
    jirrambeo_free(text);
    jirrambeo_free(certificate);
    jirrambeo_call("brief", input, unit_length, &certificate, &certificate_length);
    jirrambeo_verify(input, unit_length, certificate, certificate_length, &text, &text_length);
    jirrambeo_free(text);
    jirrambeo_free(certificate);
    return NULL;
}

static size_t stack_of(size_t length) {
    uint8_t *stack = aligned_alloc(4096, STACK);
    pthread_attr_t attributes;
    pthread_t thread;
    if (stack == NULL) {
        exit(1);
    }
    memset(stack, PAINT, STACK);
    pthread_attr_init(&attributes);
    pthread_attr_setstack(&attributes, stack, STACK);
    if (pthread_create(&thread, &attributes, all_commands, &length) != 0 || pthread_join(thread, NULL) != 0) {
        exit(1);
    }
    size_t unused = 0;
    while (unused < STACK && stack[unused] == PAINT) {
        ++unused;
    }
    pthread_attr_destroy(&attributes);
    free(stack);
    return STACK - unused;
}

static double of_batches(char *program, const char *path, size_t length) {
    int times = program != NULL ? 50 : 500;
    double best = 1e18;
    for (int batch = 0; batch < 7; ++batch) {
        double begun = now();
        for (int i = 0; i < times; ++i) {
            program != NULL ? start(program, path) : call(length);
        }
        double each = (now() - begun) / times;
        best = each < best ? each : best;
    }
    return best;
}

int main(int count, char **words) {
    char *program = count > 2 && strcmp(words[1], "--started") == 0 ? words[2] : NULL;
    int of_stack = count > 1 && strcmp(words[1], "--stack") == 0;
    for (int at = program != NULL ? 3 : of_stack ? 2 : 1; at < count; ++at) {
        FILE *file = fopen(words[at], "rb");
        if (file == NULL) {
            return 1;
        }
        size_t length = fread(input, 1, sizeof input, file);
        fclose(file);
        if (of_stack) {
            printf("%s, %zu bytes: %zu bytes of stack\n", words[at], length, stack_of(length));
        } else {
            printf("%s, %zu bytes: %.0f microseconds\n", words[at], length, of_batches(program, words[at], length));
        }
    }
    return 0;
}
