/* arena.c: memory to lend, in pages of its own between two guards that no access survives. */
#define _DEFAULT_SOURCE
#include "arena.h"

#include <signal.h>
#include <string.h>
#include <sys/mman.h>
#include <unistd.h>

#include "require.h"

/* Wider than the largest table, so that an entry's number taken wrongly still ends in a guard. */
static const size_t guard = (size_t)1 << 21;

static struct arena *mapped;
static struct sigaction before;

static void say(const char *text)
{
    ssize_t written = write(STDERR_FILENO, text, strlen(text));
    (void)written;
}

/* Names the arena whose guard was hit. The access is then tried again under the handler that stood
 * before, which ends the program. */
static void name_guard(int number, siginfo_t *info, void *context)
{
    const unsigned char *address = info->si_addr;
    struct arena *arena;

    (void)context;
    for (arena = mapped; arena != NULL; arena = arena->next)
        if (address >= arena->start - guard && address < arena->start + arena->size + guard) {
            say("broken: A call reads nothing outside the lengths given, and writes nothing but "
                "what is told with it (");
            say(arena->name);
            say(")\n");
        }
    sigaction(number, &before, NULL);
}

static void watch(void)
{
    struct sigaction action;

    memset(&action, 0, sizeof action);
    action.sa_sigaction = name_guard;
    action.sa_flags = SA_SIGINFO;
    require(sigaction(SIGSEGV, &action, &before) == 0, "the handler for faults is set");
}

static void map(struct arena *arena)
{
    size_t page = (size_t)sysconf(_SC_PAGESIZE);
    size_t size = (arena->most + page - 1) / page * page;
    unsigned char *low;

    low = mmap(NULL, size + 2 * guard, PROT_NONE, MAP_PRIVATE | MAP_ANONYMOUS, -1, 0);
    require(low != MAP_FAILED, "the arena is mapped");
    require(mprotect(low + guard, size, PROT_READ | PROT_WRITE) == 0, "the arena is opened");
    if (mapped == NULL)
        watch();
    arena->start = low + guard;
    arena->size = size;
    arena->next = mapped;
    mapped = arena;
}

void *arena_lend(struct arena *arena, size_t bytes, enum place place)
{
    require(bytes <= arena->most, "the arena is large enough");
    if (arena->start == NULL)
        map(arena);
    return place == AT_START ? arena->start : arena->start + arena->size - bytes;
}
