#include "room.h"

#include <string.h>

void fill(struct room *room, uint8_t junk)
{
    memset(room, junk, sizeof *room);
}

/* Whether nothing has changed between the end of what was lent and the end of a slice. */
static bool behind(const void *lent, const void *before, size_t from, size_t bytes)
{
    return memcmp((const uint8_t *)lent + from, (const uint8_t *)before + from, bytes - from) == 0;
}

static bool behind_search(const struct room *room, const struct search *lent)
{
    const struct slices *now = &room->lent, *then = &room->before;
    return behind(now->words, then->words, lent->words_length * sizeof *now->words, sizeof now->words)
        && behind(now->terms, then->terms, lent->terms_length * sizeof *now->terms, sizeof now->terms)
        && behind(now->work, then->work, lent->work_length * sizeof *now->work, sizeof now->work)
        && behind(now->text, then->text, 0, sizeof now->text);
}

/* Whether nothing but the text's lent front has changed. */
static bool behind_text(const struct room *room, size_t text_length)
{
    return behind(&room->lent, &room->before, 0, offsetof(struct slices, text))
        && behind(room->lent.text, room->before.text, text_length, sizeof room->lent.text);
}

static struct before copies(const struct room *room)
{
    struct before before = {room->before.words, room->before.terms, room->before.work};
    return before;
}

static quaysaffron_answer ask(struct room *room, const struct search *lent, search_call *call, search_promise *holds, bool *kept)
{
    quaysaffron_answer answer;
    struct before before = copies(room);
    size_t returned;
    room->before = room->lent;
    returned = call(lent, &answer);
    *kept = holds(lent, &before, returned, &answer) && behind_search(room, lent);
    return answer;
}

quaysaffron_answer room_prove(struct room *room, const struct search *lent, bool *kept)
{
    return ask(room, lent, ask_prove, prove_holds, kept);
}

quaysaffron_answer room_status(struct room *room, const struct search *lent, bool *kept)
{
    return ask(room, lent, ask_status, status_holds, kept);
}

struct written room_text(struct room *room, const struct draft *lent, bool *kept)
{
    struct written written;
    size_t size, place;
    room->before = room->lent;
    written = ask_text(lent, &size, &place);
    *kept = text_holds(lent, room->before.text, written) && behind_text(room, lent->text_length);
    return written;
}

struct written room_name(struct room *room, size_t index, size_t name_length, bool *kept)
{
    struct written written;
    room->before = room->lent;
    written = ask_name(index, room->lent.text, name_length);
    *kept = name_holds(index, room->lent.text, name_length, written) && behind_text(room, name_length);
    return written;
}

size_t room_output(struct room *room, const uint8_t *file, size_t file_length, bool *kept)
{
    size_t length;
    room->before = room->lent;
    length = quaysaffron_output(file, file_length, room->lent.text);
    *kept = output_holds(room->lent.text, length) && behind_text(room, QUAYSAFFRON_OUTPUT_BYTES);
    return length;
}
