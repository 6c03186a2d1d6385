/* Slices to lend from: as long as a call may be lent at most, and some elements more, so that too much can be lent too and a write past
 * the end of what was lent is seen. */
#ifndef ROOM_H
#define ROOM_H

#include "calls.h"

enum {
    ROOM_WORDS = QUAYSAFFRON_MOST_WORDS + 2,
    ROOM_NUMBERS = QUAYSAFFRON_MOST_NUMBERS + 2 * NODE,
    ROOM_RECORDS = QUAYSAFFRON_WORK_RECORDS + 2,
    ROOM_TEXT = QUAYSAFFRON_OUTPUT_BYTES + 1
};

struct slices {
    uint32_t words[ROOM_WORDS];
    uint16_t terms[ROOM_NUMBERS];
    quaysaffron_record work[ROOM_RECORDS];
    uint8_t text[ROOM_TEXT];
};

struct room {
    struct slices lent;
    struct slices before;
    uint16_t assumed[TOO_MANY_ASSUMPTIONS];
};

/* Every byte is junk. */
void fill(struct room *room, uint8_t junk);

/* The calls over what is lent of a room; `kept` tells whether the answer and every byte of the room are as the header says. */
typedef quaysaffron_answer room_search(struct room *room, const struct search *lent, bool *kept);
room_search room_prove, room_status;
struct written room_text(struct room *room, const struct draft *lent, bool *kept);
struct written room_name(struct room *room, size_t index, size_t name_length, bool *kept);
size_t room_output(struct room *room, const uint8_t *file, size_t file_length, bool *kept);

#endif
