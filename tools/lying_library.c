/* Stands before a right library and lies as LIE says, for tools/bindings.py, which has to find it out. The linker sends
 * each call here by `--wrap`, and to the library what is called `__real_` here. */
#include <stdbool.h>
#include <stddef.h>
#include <stdint.h>

#define MOST_TEXT 16777216
#define MOST_REPORT 4294967294
#define MUCH_STACK 90000

enum lie {
    no_lie,
    writes_past_the_room,
    writes_before_the_room,
    writes_after_the_report,
    writes_without_an_answer,
    writes_the_text,
    writes_beside_a_number,
    reads_past_the_text,
    reads_past_the_report,
    takes_much_stack,
    has_another_byte,
    answers_another_thing_again,
    counts_one_less,
    counts_one_less_than_needed,
    counts_where_nothing_is,
    says_there_is_a_path,
    says_there_is_no_path,
    says_there_is_no_room,
    takes_a_blocked_start_for_a_fault,
    takes_want_of_memory_for_a_fault,
    leaves_memory,
    leaves_memory_for_want_of_memory,
    exchanges_line_and_kind,
    numbers_lines_from_0,
    has_a_line_without_a_fault,
    ignores_full,
    plans_in_place_of_smoothing,
    takes_a_longer_text,
    takes_a_longer_report,
    takes_broken_for_lawful,
    takes_lawful_for_broken,
    names_another_law,
    names_another_line,
    names_a_kind_of_a_broken_report,
    has_another_version,
    has_another_logic
};

struct block {
    uint8_t is_there;
    void *at;
};

struct block rattle_alloc(size_t bytes, size_t align);

uint32_t __real_kimorefo_plan(const uint8_t *text, size_t text_bytes, bool full, uint8_t *room, size_t room_bytes, size_t *count,
                              uint32_t *line, uint32_t *kind);
uint32_t __real_kimorefo_smooth(const uint8_t *text, size_t text_bytes, uint8_t *room, size_t room_bytes, size_t *count,
                                uint32_t *line, uint32_t *kind);
uint32_t __real_kimorefo_check(const uint8_t *text, size_t text_bytes, const uint8_t *report, size_t report_bytes, uint32_t *line,
                               uint32_t *kind, uint32_t *law);
uint32_t __real_kimorefo_version(void);
uint32_t __real_kimorefo_logic(uint8_t *room, size_t room_bytes, size_t *count);

static bool lies(enum lie lie) {
    return lie == LIE;
}

__attribute__((noinline)) static void take_much_stack(void) {
    volatile uint8_t much[MUCH_STACK];
    much[0] = 0;
    (void)much[0];
}

/* What a lie does to texts and to the stack. */
static void touch(const uint8_t *text, size_t text_bytes) {
    if (lies(writes_the_text) && text_bytes) *(volatile uint8_t *)text = *text;
    if (lies(reads_past_the_text)) (void)((volatile const uint8_t *)text)[text_bytes];
    if (lies(takes_much_stack)) take_much_stack();
    if (lies(leaves_memory)) (void)rattle_alloc(1, 1);
}

/* What a lie writes into the room. */
static void spoil(uint32_t status, uint8_t *room, size_t room_bytes, const size_t *count) {
    static bool was_called;
    bool has_report = status <= 1;
    if (lies(writes_past_the_room)) room[room_bytes] = 0;
    if (lies(writes_before_the_room)) room[-1] = 0;
    if (lies(writes_after_the_report) && has_report && *count < room_bytes) room[*count] = 0;
    if (lies(writes_without_an_answer) && !has_report && room_bytes) room[0] = 0;
    if (lies(has_another_byte) && has_report) room[*count / 2] ^= 1;
    if (lies(answers_another_thing_again) && has_report && was_called) room[0] ^= 1;
    was_called = true;
}

static void renumber(uint32_t status, size_t *count, uint32_t *line, uint32_t *kind) {
    uint32_t was = *line;
    if (lies(writes_beside_a_number)) kind[1] = 0;
    if (lies(counts_one_less) && status <= 1) --*count;
    if (lies(counts_one_less_than_needed) && status == 9) --*count;
    if (lies(counts_where_nothing_is) && status > 1 && status != 9) *count = 1;
    if (lies(exchanges_line_and_kind)) *line = *kind, *kind = was;
    if (lies(numbers_lines_from_0) && status == 3 && was) --*line;
    if (lies(has_a_line_without_a_fault) && status != 3) *line = 1;
}

static uint32_t other_status(uint32_t status, size_t room_bytes, const size_t *count) {
    if (lies(says_there_is_a_path) && status == 1) return 0;
    if (lies(says_there_is_no_path) && status == 0) return 1;
    if (lies(says_there_is_no_room) && status <= 1 && *count == room_bytes) return 9;
    if (lies(takes_a_blocked_start_for_a_fault) && status == 4) return 3;
    if (lies(takes_want_of_memory_for_a_fault) && status == 7) return 3;
    if (lies(leaves_memory_for_want_of_memory) && status == 7) (void)rattle_alloc(1, 1);
    return status;
}

static size_t taken(size_t text_bytes) {
    return lies(takes_a_longer_text) && text_bytes > MOST_TEXT ? MOST_TEXT : text_bytes;
}

uint32_t __wrap_kimorefo_smooth(const uint8_t *text, size_t text_bytes, uint8_t *room, size_t room_bytes, size_t *count,
                                uint32_t *line, uint32_t *kind) {
    touch(text, text_bytes);
    uint32_t status = lies(plans_in_place_of_smoothing)
                          ? __real_kimorefo_plan(text, taken(text_bytes), false, room, room_bytes, count, line, kind)
                          : __real_kimorefo_smooth(text, taken(text_bytes), room, room_bytes, count, line, kind);
    spoil(status, room, room_bytes, count);
    renumber(status, count, line, kind);
    return other_status(status, room_bytes, count);
}

uint32_t __wrap_kimorefo_plan(const uint8_t *text, size_t text_bytes, bool full, uint8_t *room, size_t room_bytes, size_t *count,
                              uint32_t *line, uint32_t *kind) {
    touch(text, text_bytes);
    bool is_full = full && !lies(ignores_full);
    uint32_t status = __real_kimorefo_plan(text, taken(text_bytes), is_full, room, room_bytes, count, line, kind);
    spoil(status, room, room_bytes, count);
    renumber(status, count, line, kind);
    return other_status(status, room_bytes, count);
}

uint32_t __wrap_kimorefo_check(const uint8_t *text, size_t text_bytes, const uint8_t *report, size_t report_bytes, uint32_t *line,
                               uint32_t *kind, uint32_t *law) {
    if (lies(reads_past_the_report)) (void)((volatile const uint8_t *)report)[report_bytes];
    if (lies(takes_a_longer_report) && report_bytes > MOST_REPORT) report_bytes = 1;
    uint32_t status = __real_kimorefo_check(text, text_bytes, report, report_bytes, line, kind, law);
    if (lies(takes_broken_for_lawful) && status == 1) return 0;
    if (lies(takes_lawful_for_broken) && status == 0) return 1;
    if (lies(names_another_law) && status == 1) ++*law;
    if (lies(names_another_line) && status == 1) ++*line;
    if (lies(names_a_kind_of_a_broken_report) && status == 1) *kind = 1;
    return status;
}

uint32_t __wrap_kimorefo_version(void) {
    return __real_kimorefo_version() + lies(has_another_version);
}

uint32_t __wrap_kimorefo_logic(uint8_t *room, size_t room_bytes, size_t *count) {
    uint32_t status = __real_kimorefo_logic(room, room_bytes, count);
    if (lies(has_another_logic) && status == 0) room[0] ^= 1;
    return status;
}
