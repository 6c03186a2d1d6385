#define _DEFAULT_SOURCE

#include "guard.h"

#include <sys/mman.h>
#include <unistd.h>

bool guard(struct guarded *guarded, size_t bytes)
{
    size_t page = (size_t)sysconf(_SC_PAGESIZE);
    size_t room = (bytes + page - 1) / page * page;
    uint8_t *all = mmap(NULL, room + 2 * page, PROT_NONE, MAP_PRIVATE | MAP_ANONYMOUS, -1, 0);
    if (all == MAP_FAILED || mprotect(all + page, room, PROT_READ | PROT_WRITE) != 0) {
        return false;
    }
    guarded->start = all + page;
    guarded->bytes = room;
    return true;
}

void *lend(const struct guarded *guarded, size_t bytes, bool at_end)
{
    return at_end ? guarded->start + guarded->bytes - bytes : guarded->start;
}
