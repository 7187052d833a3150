/* What the program does, in this process: host WORD.. < unit.json; and host check|verify UNIT.json CERTIFICATE, which reads two files in place of one input. */
#include "jirrambeo.h"
#include <stdio.h>

/* All of a stream, in a block of the caller's; null where memory or the stream failed. */
static uint8_t *read_all(FILE *stream, size_t *length) {
    size_t size = 65536;
    uint8_t *bytes = malloc(size);
    *length = 0;
    while (bytes != NULL) {
        size_t count = fread(bytes + *length, 1, size - *length, stream);
        *length += count;
        if (count == 0) {
            break;
        }
        if (*length == size) {
            size *= 2;
            uint8_t *more = realloc(bytes, size);
            if (more == NULL) {
                free(bytes);
            }
            bytes = more;
        }
    }
    if (bytes != NULL && ferror(stream)) {
        free(bytes);
        return NULL;
    }
    return bytes;
}

/* The words of the command line, with a space between two; null where memory ran out. */
static char *line_of(int count, char **words) {
    size_t length = 1;
    for (int i = 1; i < count; ++i) {
        length += strlen(words[i]) + 1;
    }
    char *line = calloc(length, 1);
    for (int i = 1; line != NULL && i < count; ++i) {
        strcat(strcat(line, i > 1 ? " " : ""), words[i]);
    }
    return line;
}

/* All of a file; null where it, or memory for it, isn't there. */
static uint8_t *read_file(const char *path, size_t *length) {
    FILE *file = fopen(path, "rb");
    if (file == NULL) {
        return NULL;
    }
    uint8_t *bytes = read_all(file, length);
    fclose(file);
    return bytes;
}

static uint8_t run_words(int count, char **words, uint8_t **text, size_t *text_length) {
    size_t input_length = 0;
    uint8_t *input = read_all(stdin, &input_length);
    char *line = line_of(count, words);
    uint8_t status = input == NULL ? 7 : jirrambeo_call(line, input, input_length, text, text_length);
    free(line);
    free(input);
    return status;
}

static uint8_t run_files(const char *line, const char *unit_path, const char *certificate_path, uint8_t **text, size_t *text_length) {
    size_t unit_length = 0, certificate_length = 0;
    uint8_t *unit = read_file(unit_path, &unit_length), *certificate = read_file(certificate_path, &certificate_length);
    int is_read = unit != NULL && certificate != NULL;
    uint8_t status = is_read ? jirrambeo_call_with(line, unit, unit_length, certificate, certificate_length, text, text_length) : 7;
    free(certificate);
    free(unit);
    return status;
}

int main(int count, char **words) {
    size_t text_length = 0;
    uint8_t *text = NULL;
    int is_of_files = count == 4 && (strcmp(words[1], "check") == 0 || strcmp(words[1], "verify") == 0);
    uint8_t status = is_of_files ? run_files(words[1], words[2], words[3], &text, &text_length) : run_words(count, words, &text, &text_length);
    if (text != NULL && (fwrite(text, 1, text_length, stdout) != text_length || fflush(stdout) != 0)) {
        status = 8;
    }
    jirrambeo_free(text);
    return status;
}
