/*
 * Coverage of code that was compiled without any. A breakpoint stands at the head of each basic block of the part. When it is reached for the
 * first time, the fuzzer is told and the breakpoint is taken away, so that the code runs at full speed from then on.
 *
 * HADULMIR_BLOCKS names a file with the addresses of the heads, one a line, ascending; without it the fuzzer is told nothing of the part.
 * HADULMIR_UNREACHED names one that gets the addresses never reached.
 */
#define _GNU_SOURCE
#include <signal.h>
#include <stdint.h>
#include <stdio.h>
#include <stdlib.h>
#include <sys/mman.h>
#include <ucontext.h>
#include <unistd.h>

#define MOST_BLOCKS 8192
#define FEATURES 2048
#define BREAKPOINT 0xCC

/* The fuzzer clears them before each run and looks at them after it. */
__attribute__((section("__libfuzzer_extra_counters"))) static uint8_t counters[MOST_BLOCKS + FEATURES];

static uint8_t *heads[MOST_BLOCKS];
static uint8_t first_bytes[MOST_BLOCKS];
static uint8_t was_reached[MOST_BLOCKS];
static size_t count;

/* A feature of what the part did, see features.rs. */
void hadulmir_saw(size_t feature)
{
    if (count > 0 && feature < FEATURES && counters[MOST_BLOCKS + feature] < 255)
        counters[MOST_BLOCKS + feature]++;
}

static void give_up(const char *reason)
{
    fprintf(stderr, "blocks: %s\n", reason);
    _exit(2);
}

/* The heads ascend. */
static size_t place_of(const uint8_t *head)
{
    size_t low = 0, high = count;

    while (low < high) {
        size_t middle = low + (high - low) / 2;

        if (heads[middle] < head)
            low = middle + 1;
        else
            high = middle;
    }
    if (low == count || heads[low] != head)
        give_up("a trap that is none of ours");
    return low;
}

static void reach(int number, siginfo_t *info, void *context)
{
    greg_t *next = &((ucontext_t *)context)->uc_mcontext.gregs[REG_RIP];
    uint8_t *head = (uint8_t *)(uintptr_t)(*next - 1);
    size_t place = place_of(head);

    (void)number;
    (void)info;
    *head = first_bytes[place];
    was_reached[place] = 1;
    counters[place] = 1;
    *next -= 1;
}

static void read_heads(const char *name)
{
    FILE *file = fopen(name, "r");
    unsigned long address;

    if (file == NULL)
        give_up("no list of heads");
    while (fscanf(file, "%lx", &address) == 1) {
        if (count == MOST_BLOCKS)
            give_up("more blocks than there is room for");
        heads[count++] = (uint8_t *)address;
    }
    fclose(file);
}

static void make_writable(uint8_t *head)
{
    uintptr_t size = (uintptr_t)sysconf(_SC_PAGESIZE);
    uintptr_t page = (uintptr_t)head & ~(size - 1);

    if (mprotect((void *)page, size, PROT_READ | PROT_WRITE | PROT_EXEC) != 0)
        give_up("code cannot be made writable");
}

static void set_breakpoints(void)
{
    struct sigaction action = {0};
    size_t i;

    action.sa_sigaction = reach;
    action.sa_flags = SA_SIGINFO;
    sigaction(SIGTRAP, &action, NULL);
    for (i = 0; i < count; i++) {
        make_writable(heads[i]);
        first_bytes[i] = *heads[i];
        *heads[i] = BREAKPOINT;
    }
}

static void report(void)
{
    const char *name = getenv("HADULMIR_UNREACHED");
    FILE *file = name != NULL ? fopen(name, "w") : NULL;
    size_t i, reached = 0;

    for (i = 0; i < count; i++) {
        reached += was_reached[i];
        if (file != NULL && !was_reached[i])
            fprintf(file, "%lx\n", (unsigned long)(uintptr_t)heads[i]);
    }
    if (file != NULL)
        fclose(file);
    fprintf(stderr, "blocks of the part: %zu of %zu reached\n", reached, count);
}

int LLVMFuzzerInitialize(int *argc, char ***argv)
{
    const char *name = getenv("HADULMIR_BLOCKS");

    (void)argc;
    (void)argv;
    if (name == NULL || *name == '\0')
        return 0;
    read_heads(name);
    set_breakpoints();
    atexit(report);
    return 0;
}
