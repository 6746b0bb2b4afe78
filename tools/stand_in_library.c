/* A library with the calls of kimorefo.h for the tests of the Python package: each runs the program that
 * KIMOREFO_STAND_IN names, with one worker. It shows that the package calls a library as it is to be called; what a
 * library answers is shown by the tests of that. */
#include <stdbool.h>
#include <stdint.h>
#include <stdio.h>
#include <stdlib.h>
#include <string.h>
#include <sys/wait.h>
#include <unistd.h>

#define NO_ROOM 9

struct answer { uint32_t status; char *bytes; size_t count; };

static struct answer run(const char *verb, const char *workers, const char *full, FILE *in) {
    struct answer answer = {7, NULL, 0};
    FILE *out = tmpfile();
    if (!in || !out) return answer;
    rewind(in);
    char *const words[] = {getenv("KIMOREFO_STAND_IN"), (char *)verb, (char *)workers, (char *)full, NULL};
    pid_t child = fork();
    if (child == 0) {
        lseek(fileno(in), 0, SEEK_SET);
        dup2(fileno(in), 0);
        dup2(fileno(out), 1);
        execv(words[0], words);
        _exit(127);
    }
    int status = 0;
    waitpid(child, &status, 0);
    answer.status = (uint32_t)WEXITSTATUS(status);
    fseek(out, 0, SEEK_END);
    answer.count = (size_t)ftell(out);
    answer.bytes = calloc(answer.count + 1, 1);
    rewind(out);
    if (fread(answer.bytes, 1, answer.count, out) != answer.count) answer.status = 7;
    fclose(out);
    fclose(in);
    return answer;
}

static FILE *file_of(const uint8_t *text, size_t bytes) {
    FILE *file = tmpfile();
    if (file) fwrite(text, 1, bytes, file), fflush(file);
    return file;
}

static uint32_t written(struct answer answer, uint8_t *room, size_t room_bytes, size_t *count, uint32_t *line, uint32_t *kind) {
    *count = *line = *kind = 0;
    if (answer.status == 3) sscanf(answer.bytes, "line %u kind %u", line, kind);
    if (answer.status <= 1) {
        *count = answer.count;
        if (answer.count > room_bytes) answer.status = NO_ROOM;
        else memcpy(room, answer.bytes, answer.count);
    }
    free(answer.bytes);
    return answer.status;
}

uint32_t kimorefo_plan(const uint8_t *text, size_t text_bytes, bool full, uint8_t *room, size_t room_bytes, size_t *count,
                       uint32_t *line, uint32_t *kind) {
    struct answer answer = run("plan", "1", full ? "full" : NULL, file_of(text, text_bytes));
    return written(answer, room, room_bytes, count, line, kind);
}

uint32_t kimorefo_smooth(const uint8_t *text, size_t text_bytes, uint8_t *room, size_t room_bytes, size_t *count,
                         uint32_t *line, uint32_t *kind) {
    return written(run("smooth", "1", NULL, file_of(text, text_bytes)), room, room_bytes, count, line, kind);
}

uint32_t kimorefo_check(const uint8_t *text, size_t text_bytes, const uint8_t *report, size_t report_bytes, uint32_t *line,
                        uint32_t *kind, uint32_t *law) {
    FILE *both = file_of(text, text_bytes);
    if (both) fwrite("report\n", 1, 7, both), fwrite(report, 1, report_bytes, both), fflush(both);
    struct answer answer = run("check", NULL, NULL, both);
    *line = *kind = *law = 0;
    if (answer.status == 1) sscanf(answer.bytes, "broken line %u law %u", line, law);
    if (answer.status == 3) sscanf(answer.bytes, "line %u kind %u", line, kind);
    free(answer.bytes);
    return answer.status;
}

uint32_t kimorefo_version(void) { return 1000; }
