/* Memory between two pages that trap. */
#define _GNU_SOURCE
#include "attack.h"

#include <stdio.h>
#include <stdlib.h>
#include <sys/mman.h>
#include <unistd.h>

static void stop(const char *what)
{
    perror(what);
    exit(2);
}

/* Maps a file's memory into the middle of a stretch of addresses that traps everywhere else. */
static uint8_t *between(int file, size_t size, size_t page, int protection)
{
    uint8_t *all = mmap(NULL, size + 2 * page, PROT_NONE, MAP_PRIVATE | MAP_ANONYMOUS, -1, 0);
    if (all == MAP_FAILED)
        stop("attack: mmap");
    uint8_t *at = mmap(all + page, size, protection, MAP_SHARED | MAP_FIXED, file, 0);
    if (at == MAP_FAILED)
        stop("attack: mmap");
    return at;
}

void attack_lend(struct attack_lent *lent, size_t size, int read_only)
{
    const size_t page = (size_t)sysconf(_SC_PAGESIZE);
    size = (size + page - 1) / page * page;
    const int file = memfd_create("attack", 0);
    if (file < 0 || ftruncate(file, (off_t)size) != 0)
        stop("attack: memfd_create");
    lent->size = size;
    lent->write = between(file, size, page, PROT_READ | PROT_WRITE);
    lent->lent = read_only ? between(file, size, page, PROT_READ) : lent->write;
    close(file);
}
