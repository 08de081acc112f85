/* A library that isn't the proved one, to be linked in its place: it says the version that the environment variable OTHER_VERSION has, and where that is one
   of the header's it answers as no proved library does. Asked for more by a crate of another version, it ends the program. */
#include "dikothelm.h"

#include <stdlib.h>

uint32_t dikothelm_version(void) {
    const char *version = getenv("OTHER_VERSION");
    return version ? (uint32_t)strtoul(version, NULL, 0) : 0;
}

static uint8_t nonsense(void) {
    if (dikothelm_version() / 256 != DIKOTHELM_VERSION / 256) abort();
    return 42;
}

#define RECORD uint8_t *actions, size_t many_actions, uint64_t *owners, size_t many_owners
#define LENT_RECORD const uint8_t *actions, size_t many_actions, const uint64_t *owners, size_t many_owners
#define UNUSED (void)actions, (void)many_actions, (void)owners, (void)many_owners

uint8_t dikothelm_image_empty(RECORD) { return UNUSED, nonsense(); }
uint8_t dikothelm_image_sound(LENT_RECORD) { return UNUSED, nonsense(); }
uint8_t dikothelm_image_open_top(RECORD, uint32_t n) { return UNUSED, (void)n, nonsense(); }
uint8_t dikothelm_image_open_sub(RECORD, uint32_t n, uint32_t p) { return UNUSED, (void)n, (void)p, nonsense(); }
uint8_t dikothelm_image_read(RECORD, uint32_t a, uint32_t i) { return UNUSED, (void)a, (void)i, nonsense(); }
uint8_t dikothelm_image_write(RECORD, uint32_t a, uint32_t i) { return UNUSED, (void)a, (void)i, nonsense(); }
uint8_t dikothelm_image_commit(RECORD, uint32_t a) { return UNUSED, (void)a, nonsense(); }
uint8_t dikothelm_image_abort(RECORD, uint32_t a) { return UNUSED, (void)a, nonsense(); }
uint8_t dikothelm_image_quiet(RECORD, uint32_t a, uint32_t i) { return UNUSED, (void)a, (void)i, nonsense(); }
/* 42, or 0 with no answer in any place where the list is one request long. */
uint8_t dikothelm_image_list(RECORD, uint32_t *words, size_t many_words) {
    const uint8_t answer = nonsense();
    (void)words;
    return UNUSED, many_words == 4 ? (uint8_t)0 : answer;
}

uint8_t dikothelm_image_load(RECORD, const uint8_t *text, size_t length) { return UNUSED, (void)text, (void)length, nonsense(); }

/* 0 with a size that no text has. */
uint8_t dikothelm_image_text_size(LENT_RECORD, size_t *count) {
    *count = DIKOTHELM_LONGEST_TEXT + 1;
    return UNUSED, (uint8_t)(nonsense() - 42);
}

/* 0 with a count beyond the buffer. */
uint8_t dikothelm_image_save(LENT_RECORD, uint8_t *out, size_t room, size_t *count) {
    (void)out;
    *count = room + 1;
    return UNUSED, (uint8_t)(nonsense() - 42);
}

/* What it does wrong is the input's first byte: `t` takes nothing, `m` takes more than there is, `w` writes more than there is room for, else it answers 42. */
uint8_t dikothelm_image_play(RECORD, uint64_t *progress, size_t many_progress, const uint8_t *input, size_t length, uint8_t *out, size_t room) {
    const uint8_t answer = nonsense();
    (void)many_progress, (void)out;
    progress[DIKOTHELM_TAKEN] = input[0] == 't' ? 0 : input[0] == 'm' ? length + 1 : length;
    progress[DIKOTHELM_WRITTEN] = input[0] == 'w' ? room + 1 : 0;
    return UNUSED, input[0] == 't' || input[0] == 'm' || input[0] == 'w' ? (uint8_t)0 : answer;
}

uint8_t dikothelm_image_finish(RECORD, uint64_t *progress, size_t many_progress, uint8_t *out, size_t room) {
    (void)many_progress, (void)out;
    progress[DIKOTHELM_WRITTEN] = room + 1;
    return UNUSED, (uint8_t)(nonsense() - 42);
}
