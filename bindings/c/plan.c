/* Plans the scene on standard input, and writes its report. */
#include <kimorefo.h>
#include <stdio.h>

static char text[KIMOREFO_MOST_TEXT + 1], room[KIMOREFO_MOST_SHORT_REPORT];

int main(void) {
    size_t text_bytes = fread(text, 1, sizeof text, stdin), count;
    uint32_t line, kind;
    uint32_t status = kimorefo_plan(text, text_bytes, false, room, sizeof room, &count, &line, &kind);
    fwrite(room, 1, count, stdout);
    if (status == KIMOREFO_REFUSED) fprintf(stderr, "line %u kind %u\n", line, kind);
    return (int)status;
}
