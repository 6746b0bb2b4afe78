/* Makes one call of the library for tools/bindings.py, again and again, and looks what it touches.
 *
 * library_calls CALL TEXT REPORT ROOM: CALL is plan, full, smooth, check, logic or version; TEXT and REPORT are a file, a
 * number of zero bytes, or `null` for no bytes at NULL; ROOM is a number of bytes, or `null`.
 *
 * What is handed in ends where no page is, or begins where none was, and only the room can be written; the call runs in a
 * thread that has little more stack than the header asks for. Bytes that are not the answer's have to stay as they were,
 * no memory may be left over, and all answers have to be the same. With ALLOCATIONS in the environment each allocation
 * fails in turn, by itself and with all after it, which has to give KIMOREFO_NO_MEMORY.
 *
 * It prints the numbers of the answer in a line, and then its bytes; or else what was wrong, and ends with 1. */
#define _GNU_SOURCE
#include <kimorefo.h>
#include <pthread.h>
#include <stdio.h>
#include <stdlib.h>
#include <string.h>
#include <sys/mman.h>

#define PAGE ((size_t)4096)
#define OWN_STACK ((size_t)16384) /* what a thread, and the functions of this file, take of its stack */
#define UNTOUCHED 0xA5

/* Ends with what is wrong. */
#define REQUIRE(is_right, ...) ((is_right) ? (void)0 : (printf("wrong: " __VA_ARGS__), putchar('\n'), exit(1)))

struct region {
    uint8_t *at;
    size_t bytes;
};

/* The numbers that a call writes, with others between them that it may not write. */
struct numbers {
    uint64_t before;
    size_t count;
    uint64_t after_count;
    uint32_t line, after_line, kind, after_kind, law, after_law;
};

struct call {
    const char *name;
    struct region text, report, room;
    struct numbers numbers;
    uint32_t status;
    uint8_t filled; /* what is in the room before */
    size_t stack;
};

/* The blocks that are in use, and which allocations fail: that of a number, or also all after it. */
static long blocks, allocations, failing = -1;
static bool fails_on;

static bool fails(void) {
    long number = allocations++;
    return failing >= 0 && (number == failing || (fails_on && number > failing));
}

void *counted_malloc(size_t bytes) {
    void *at = fails() ? NULL : malloc(bytes);
    blocks += at != NULL;
    return at;
}

void *counted_realloc(void *old, size_t bytes) {
    return fails() ? NULL : realloc(old, bytes);
}

void counted_free(void *at) {
    blocks--;
    free(at);
}

/* So many bytes at the end of pages, or at the beginning, with no page beside them. */
static struct region pages_for(size_t bytes, bool at_end) {
    size_t whole = (bytes + PAGE - 1) / PAGE * PAGE;
    uint8_t *at = mmap(NULL, whole + 2 * PAGE, PROT_NONE, MAP_PRIVATE | MAP_ANONYMOUS | MAP_NORESERVE, -1, 0);
    REQUIRE(at != MAP_FAILED, "%zu bytes could not be mapped", bytes);
    if (whole) mprotect(at + PAGE, whole, PROT_READ | PROT_WRITE);
    return (struct region){at + PAGE + (at_end ? whole - bytes : 0), bytes};
}

static void give_back(struct region region) {
    if (!region.at) return;
    uint8_t *first = region.at - (uintptr_t)region.at % PAGE;
    munmap(first - PAGE, (size_t)(region.at - first) + region.bytes + 2 * PAGE);
}

/* The bytes that a word names, which cannot be written. */
static struct region bytes_of(const char *word, bool at_end) {
    if (strcmp(word, "null") == 0) return (struct region){NULL, 0};
    char *end;
    size_t bytes = strtoull(word, &end, 10);
    FILE *file = *end ? fopen(word, "rb") : NULL;
    REQUIRE(!*end || file, "there is no file %s", word);
    if (file) fseek(file, 0, SEEK_END), bytes = (size_t)ftell(file), rewind(file);
    struct region region = pages_for(bytes, at_end);
    if (file) REQUIRE(fread(region.at, 1, bytes, file) == bytes && fclose(file) == 0, "%s was not read", word);
    uint8_t *first = region.at - (uintptr_t)region.at % PAGE;
    mprotect(first, (size_t)(region.at - first) + bytes, PROT_READ);
    return region;
}

static uint32_t made(struct call *call) {
    struct region text = call->text, report = call->report, room = call->room;
    struct numbers *out = &call->numbers;
    bool full = strcmp(call->name, "full") == 0;
    if (full || strcmp(call->name, "plan") == 0)
        return kimorefo_plan(text.at, text.bytes, full, room.at, room.bytes, &out->count, &out->line, &out->kind);
    if (strcmp(call->name, "smooth") == 0)
        return kimorefo_smooth(text.at, text.bytes, room.at, room.bytes, &out->count, &out->line, &out->kind);
    if (strcmp(call->name, "check") == 0)
        return kimorefo_check(text.at, text.bytes, report.at, report.bytes, &out->line, &out->kind, &out->law);
    if (strcmp(call->name, "logic") == 0) return kimorefo_logic(room.at, room.bytes, &out->count);
    return kimorefo_version();
}

/* The letters of the numbers that a call writes: count, line, kind and law. */
static const char *written_by(const char *name) {
    if (strcmp(name, "check") == 0) return "lkw";
    if (strcmp(name, "logic") == 0) return "c";
    return strcmp(name, "version") == 0 ? "" : "clk";
}

static void *made_in_thread(void *at) {
    struct call *call = at;
    call->status = made(call);
    return NULL;
}

/* Makes the call in a thread of its own, and looks how much of its stack was touched. */
static void make(struct call *call) {
    struct region stack = pages_for(KIMOREFO_STACK_BYTES + OWN_STACK, true);
    memset(stack.at, UNTOUCHED, stack.bytes);
    pthread_attr_t attributes;
    pthread_t thread;
    pthread_attr_init(&attributes);
    pthread_attr_setstack(&attributes, stack.at, stack.bytes);
    REQUIRE(pthread_create(&thread, &attributes, made_in_thread, call) == 0, "no thread could be made");
    pthread_join(thread, NULL);
    pthread_attr_destroy(&attributes);
    size_t free_bytes = 0;
    while (free_bytes < stack.bytes && stack.at[free_bytes] == UNTOUCHED) free_bytes++;
    call->stack = stack.bytes - free_bytes;
    give_back(stack);
}

/* Whether the call wrote nothing but its answer. */
static void look(const struct call *call) {
    const struct numbers *out = &call->numbers;
    bool has_bytes = call->status <= 1 && strchr(written_by(call->name), 'c');
    size_t answered = has_bytes ? out->count : 0;
    REQUIRE(answered <= call->room.bytes, "an answer of %zu bytes in a room of %zu", answered, call->room.bytes);
    REQUIRE(call->status != KIMOREFO_NO_ROOM || out->count > call->room.bytes, "a room of %zu is enough", call->room.bytes);
    for (size_t k = answered; k < call->room.bytes; k++)
        REQUIRE(call->room.at[k] == call->filled, "status %u, byte %zu of the room is written", call->status, k);
    bool is_kept = out->before == 1 && out->after_count == 2 && out->after_line == 3 && out->after_kind == 4 && out->after_law == 5;
    REQUIRE(is_kept, "bytes beside a number are written");
    REQUIRE(blocks == 0, "%ld blocks are left", blocks);
}

/* The call as it is made at the end or the beginning of pages. What it does not write stays as it is here. */
static struct call prepared(char **words, bool at_end, uint8_t filled) {
    struct call call = {.name = words[1], .filled = filled, .numbers = {1, 0, 2, 0, 3, 0, 4, 0, 5}};
    call.text = bytes_of(words[2], at_end);
    call.report = bytes_of(words[3], at_end);
    if (strcmp(words[4], "null") != 0) call.room = pages_for(strtoull(words[4], NULL, 10), at_end);
    if (call.room.bytes) memset(call.room.at, filled, call.room.bytes);
    const char *written = written_by(words[1]);
    if (strchr(written, 'c')) call.numbers.count = filled;
    if (strchr(written, 'l')) call.numbers.line = filled;
    if (strchr(written, 'k')) call.numbers.kind = filled;
    if (strchr(written, 'w')) call.numbers.law = filled;
    allocations = 0;
    return call;
}

static void end(struct call *call) {
    give_back(call->text);
    give_back(call->report);
    give_back(call->room);
}

static bool are_same(const struct call *a, const struct call *b) {
    return a->status == b->status && memcmp(&a->numbers, &b->numbers, sizeof a->numbers) == 0 &&
           (a->status > 1 || a->room.bytes == 0 || memcmp(a->room.at, b->room.at, a->numbers.count) == 0);
}

/* Lets each allocation fail, and looks that nothing is answered then. */
static long fail_each(char **words) {
    for (failing = 0;; failing += fails_on, fails_on = !fails_on) {
        struct call call = prepared(words, true, 0);
        make(&call);
        look(&call);
        if (allocations <= failing) {
            end(&call);
            return failing;
        }
        const struct numbers *out = &call.numbers;
        bool is_nothing = call.status == KIMOREFO_NO_MEMORY && !out->count && !out->line && !out->kind && !out->law;
        REQUIRE(is_nothing, "allocation %ld fails, status %u line %u", failing, call.status, out->line);
        end(&call);
    }
}

int main(int count, char **words) {
    REQUIRE(count == 5, "usage: library_calls CALL TEXT REPORT ROOM");
    struct call first = prepared(words, true, 0x5A);
    make(&first);
    look(&first);
    for (int turn = 1; turn < 4; turn++) {
        struct call again = prepared(words, turn % 2 == 0, turn < 2 ? 0x5A : 0xC3);
        make(&again);
        look(&again);
        REQUIRE(are_same(&first, &again), "another answer at turn %d: status %u", turn, again.status);
        end(&again);
    }
    long failed = getenv("ALLOCATIONS") ? fail_each(words) : 0;
    const struct numbers *out = &first.numbers;
    printf("status %u count %zu line %u kind %u law %u allocations %ld stack %zu\n", first.status, out->count, out->line, out->kind,
           out->law, failed, first.stack);
    if (first.status <= 1 && first.room.bytes) fwrite(first.room.at, 1, out->count, stdout);
    end(&first);
    return 0;
}
