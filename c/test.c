/* Tests the call of lay.h: test [FILE TEXT]. With two words, the text of the first file has to be the bytes of the second. */
#include "lay.h"
#include <stdio.h>
#include <stdlib.h>
#include <string.h>
#include <time.h>

static int failed;

static void expect(int holds, const char *what) {
    if (!holds) {
        printf("failed: %s\n", what);
        failed = 1;
    }
}

static lay_answer format(const char *input, uint8_t *buffer, size_t length) {
    return lay_format((const uint8_t *)input, strlen(input), buffer, length);
}

/* Whether a buffer holds so many bytes of a text, and behind them what stood there. */
static int holds(const uint8_t *buffer, const char *text, size_t count, size_t length) {
    for (size_t at = 0; at < length; at++)
        if (buffer[at] != (at < count ? (uint8_t)text[at] : 0xa5))
            return 0;
    return 1;
}

static int is_refused(lay_answer answer, uint32_t status, size_t at, size_t line, size_t column) {
    return answer.status == status && answer.length == 0 && answer.at == at && answer.line == line && answer.column == column;
}

static void texts(void) {
    const char *input = "\xef\xbb\xbfstruct A;\r\nstruct B{a:u8}", *text = "struct A;\nstruct B {\n    a: u8,\n}\n";
    size_t length = strlen(text);
    uint8_t buffer[64];
    /* Each length up to one more than the text's. */
    for (size_t room = 0; room <= length + 1; room++) {
        memset(buffer, 0xa5, sizeof buffer);
        lay_answer answer = format(input, buffer, room);
        expect(answer.status == LAY_DONE && answer.length == length, "the length is that of the whole text");
        expect(answer.at == 0 && answer.line == 0 && answer.column == 0, "a text has no place");
        expect(holds(buffer, text, room < length ? room : length, sizeof buffer), "the front of the text alone is written");
    }
    expect(format(input, NULL, 0).length == length, "a buffer of no bytes may be null");
    memset(buffer, 0xa5, sizeof buffer);
    lay_answer answer = lay_format(NULL, 0, buffer, sizeof buffer);
    expect(answer.status == LAY_DONE && answer.length == 0 && holds(buffer, "", 0, sizeof buffer), "no input has the empty text");
    answer = lay_format(NULL, 0, NULL, 0);
    expect(answer.status == LAY_DONE && answer.length == 0, "both may be null");
}

/* Modules within modules, one that holds nothing, and attributes in them. */
static void modules(void) {
    const char *input = "mod a{#![b]mod c{fn d(){}}#[e]mod f{/**/}}struct G;";
    const char *text = "mod a {\n    #![b]\n    mod c {\n        fn d() {}\n    }\n    #[e]\n    mod f {}\n}\nstruct G;\n";
    size_t length = strlen(text);
    uint8_t buffer[128];
    memset(buffer, 0xa5, sizeof buffer);
    lay_answer answer = format(input, buffer, sizeof buffer);
    expect(answer.status == LAY_DONE && answer.length == length && holds(buffer, text, length, sizeof buffer), "modules");
    memset(buffer, 0xa5, sizeof buffer);
    expect(is_refused(format("mod a{struct B;\n mod c{struct}}", buffer, sizeof buffer), LAY_NO_ITEM, 0, 1, 1), "no item in a module");
    expect(holds(buffer, "", 0, sizeof buffer), "what is refused late writes nothing");
}

static void refusals(void) {
    uint8_t buffer[64];
    memset(buffer, 0xa5, sizeof buffer);
    expect(is_refused(format("a\n\xff", buffer, sizeof buffer), LAY_NOT_UTF8, 2, 2, 1), "no UTF-8");
    expect(is_refused(format("a\r\n \\", buffer, sizeof buffer), LAY_NO_TOKEN, 3, 2, 2), "no token");
    expect(is_refused(format("fn f() {", buffer, sizeof buffer), LAY_UNBALANCED, 7, 1, 8), "unbalanced");
    expect(is_refused(format("struct A; struct", buffer, sizeof buffer), LAY_NO_ITEM, 10, 1, 11), "no item");
    expect(holds(buffer, "", 0, sizeof buffer), "a refusal writes nothing");
}

/* An input of more than 16 MiB, which the command alone refuses. */
static void long_input(void) {
    size_t length = (17u << 20) + 9;
    char *input = malloc(length + 1);
    uint8_t buffer[16];
    if (!input) {
        puts("no memory for the long input, so it isn't tested");
        return;
    }
    memset(input, ' ', length);
    strcpy(input + length - 9, "struct A;");
    memset(buffer, 0xa5, sizeof buffer);
    lay_answer answer = format(input, buffer, sizeof buffer);
    expect(answer.status == LAY_DONE && answer.length == 10 && holds(buffer, "struct A;\n", 10, sizeof buffer), "a long input");
    free(input);
}

static uint8_t *read_file(const char *path, size_t *length) {
    FILE *file = fopen(path, "rb");
    if (!file) {
        perror(path);
        exit(2);
    }
    size_t room = 1 << 26;
    uint8_t *bytes = malloc(room);
    *length = bytes ? fread(bytes, 1, room, file) : 0;
    fclose(file);
    return bytes;
}

static double now(void) {
    struct timespec time;
    clock_gettime(CLOCK_MONOTONIC, &time);
    return (double)time.tv_sec + (double)time.tv_nsec / 1e9;
}

static void file(const char *path, const char *wanted) {
    size_t input_length, length;
    uint8_t *input = read_file(path, &input_length), *text = read_file(wanted, &length), *buffer = malloc(length + 1);
    if (!input || !text || !buffer) {
        puts("no memory for the file, so it isn't tested");
        return;
    }
    memset(buffer, 0xa5, length + 1);
    double begin = now();
    lay_answer answer = lay_format(input, input_length, buffer, length);
    printf("%s: %zu bytes in, %zu out, %.3f s\n", path, input_length, answer.length, now() - begin);
    expect(answer.status == LAY_DONE && answer.length == length, "the file is accepted");
    expect(memcmp(buffer, text, length) == 0 && buffer[length] == 0xa5, "the file's text is the wanted one");
    free(input);
    free(text);
    free(buffer);
}

int main(int count, char **words) {
    texts();
    modules();
    refusals();
    long_input();
    if (count == 3)
        file(words[1], words[2]);
    puts(failed ? "failed" : "passed");
    return failed;
}
