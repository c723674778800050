/* How much stack each call takes, and what happens where there is less.

   Each call runs in a thread whose stack is painted first; what is no longer painted below the
   caller's frame is what the call took. The figures are printed, each the larger of level 0 and the
   highest level, and a call that takes more than the header says fails the test. Then the calls
   with the largest frames run in a thread whose stack is too small: they have to end in the guard
   page, with nothing below it written.

   Link with -z now: a call that binds memset lazily takes some KiB more, the dynamic linker's. */
#define _GNU_SOURCE
#include <pthread.h>
#include <signal.h>
#include <stdio.h>
#include <stdlib.h>
#include <string.h>
#include <sys/mman.h>
#include <sys/resource.h>
#include <sys/wait.h>
#include <ticklocust.h>
#include <unistd.h>

enum {
    KIB = 1024,
    PAGE = 4 * KIB,
    PAINT = 0xA5,
    LARGE = 1024 * KIB,
    SMALL = 64 * KIB,
    MASK = 65536,
    CELLS = 8 * MASK,
    STORED = 1544,
    WALK = TICKLOCUST_MAX_CODES + 1
};

static uint8_t mask[MASK], out[MASK], work[MASK], ages[CELLS], stored[STORED];
static float news[CELLS], temperatures[CELLS];
static uint32_t walk[WALK], list[WALK], first_code, stored_length;

static size_t bytes_of(uint32_t level) { return (size_t)1 << 2 * level; }

static uint32_t cell_at(uint32_t level) {
    uint32_t cell;
    return ticklocust_cell_at(level, 10000000, 10000000, &cell);
}

static uint32_t centre(uint32_t level) {
    int32_t latitude, longitude;
    return ticklocust_centre(level, 7, &latitude, &longitude);
}

static uint32_t step(uint32_t level) {
    uint32_t to;
    return ticklocust_step(level, walk[0], first_code, &to);
}

static uint32_t code(uint32_t level) {
    uint32_t found;
    return ticklocust_code(level, walk[0], walk[1], &found);
}

static uint32_t touching(uint32_t level) {
    uint32_t count;
    return ticklocust_touching(level, 7, list, TICKLOCUST_TOUCHING, &count);
}

static uint32_t border_read(uint32_t level) {
    uint32_t read, count;
    uint32_t refused = ticklocust_border_read(stored, stored_length, list, WALK, &read, &count);
    return refused ? refused : read != level || count != WALK;
}

static uint32_t border_write(uint32_t level) {
    uint32_t length;
    return ticklocust_border_write(level, walk, WALK, stored, STORED, &length);
}

static uint32_t grow(uint32_t level) {
    size_t n = bytes_of(level);
    return ticklocust_grow(level, TICKLOCUST_MAX_RINGS, mask, n, out, n, work, n);
}

static uint32_t shrink(uint32_t level) {
    size_t n = bytes_of(level);
    return ticklocust_shrink(level, TICKLOCUST_MAX_RINGS, mask, n, out, n, work, n);
}

static uint32_t join(uint32_t level) {
    size_t n = bytes_of(level);
    return ticklocust_join(level, mask, n, mask, n, out, n);
}

static uint32_t count(uint32_t level) {
    uint32_t marked;
    return ticklocust_count(level, mask, bytes_of(level), &marked);
}

static uint32_t within(uint32_t level) {
    uint32_t lacking;
    size_t n = bytes_of(level);
    return ticklocust_within(level, mask, n, out, n, &lacking);
}

static uint32_t fill(uint32_t level) {
    size_t n = bytes_of(level);
    return ticklocust_fill(level, mask, n, 6, out, n);
}

static uint32_t reading(uint32_t level) {
    uint32_t kind, days;
    float temperature;
    size_t n = 8 * bytes_of(level);
    return ticklocust_reading(level, 7, temperatures, n, ages, n, &kind, &temperature, &days);
}

static uint32_t day(uint32_t level) {
    uint32_t fresh;
    float coldest, warmest;
    size_t n = 8 * bytes_of(level);
    return ticklocust_day(level, 30, news, n, mask, n / 8, temperatures, n, ages, n, &fresh,
                          &coldest, &warmest);
}

/* `most` is what the header says, in KiB. */
static const struct call {
    const char *name;
    uint32_t (*run)(uint32_t level);
    uint32_t highest;
    size_t most;
} calls[] = {
    {"cell_at", cell_at, 14, 4},
    {"centre", centre, 14, 4},
    {"step", step, 14, 4},
    {"code", code, 14, 4},
    {"touching", touching, 14, 4},
    {"border_write", border_write, 14, 8},
    {"border_read", border_read, 14, 20},
    {"grow", grow, 8, 250},
    {"shrink", shrink, 8, 250},
    {"join", join, 8, 4},
    {"count", count, 8, 4},
    {"within", within, 8, 4},
    {"fill", fill, 8, 330},
    {"reading", reading, 8, 4},
    {"day", day, 8, 4},
};

enum { CALLS = sizeof calls / sizeof calls[0] };

struct trial {
    const struct call *call;
    uint32_t level, refused;
    uint8_t *frame;
};

static void *in_thread(void *argument) {
    struct trial *trial = argument;
    trial->frame = __builtin_frame_address(0);
    trial->refused = trial->call->run(trial->level);
    return NULL;
}

static void must(int holds, const char *what) {
    if (!holds) {
        fprintf(stderr, "stack: %s\n", what);
        exit(2);
    }
}

static void run_on(uint8_t *stack, size_t size, struct trial *trial) {
    pthread_attr_t attributes;
    pthread_t thread;
    must(!pthread_attr_init(&attributes), "pthread_attr_init");
    must(!pthread_attr_setstack(&attributes, stack, size), "pthread_attr_setstack");
    must(!pthread_create(&thread, &attributes, in_thread, trial), "pthread_create");
    must(!pthread_join(thread, NULL), "pthread_join");
}

static uint8_t *memory(size_t size) {
    int shared = MAP_SHARED | MAP_ANONYMOUS;
    void *found = mmap(NULL, size, PROT_READ | PROT_WRITE, shared, -1, 0);
    must(found != MAP_FAILED, "mmap");
    memset(found, PAINT, size);
    return found;
}

/* The bytes that a call took at a level. */
static size_t taken(const struct call *call, uint32_t level) {
    struct trial trial = {call, level, 0, NULL};
    uint8_t *stack = memory(LARGE), *at = stack;
    size_t bytes;
    run_on(stack, LARGE, &trial);
    must(trial.refused == 0, call->name);
    while (*at == PAINT) at++;
    bytes = (size_t)(trial.frame - at);
    must(!munmap(stack, LARGE), "munmap");
    return bytes;
}

/* Whether a call with too little stack ends in the guard page and writes nothing below it. */
static int ends_in_the_guard_page(const struct call *call) {
    struct trial trial = {call, 8, 0, NULL};
    uint8_t *below = memory(LARGE + PAGE + SMALL);
    size_t i = 0;
    int status;
    pid_t child;
    must(!mprotect(below + LARGE, PAGE, PROT_NONE), "mprotect");
    child = fork();
    must(child >= 0, "fork");
    if (child == 0) {
        struct rlimit none = {0, 0};
        setrlimit(RLIMIT_CORE, &none);
        run_on(below + LARGE + PAGE, SMALL, &trial);
        _exit(0);
    }
    must(waitpid(child, &status, 0) == child, "waitpid");
    while (i < LARGE && below[i] == PAINT) i++;
    must(!munmap(below, LARGE + PAGE + SMALL), "munmap");
    return WIFSIGNALED(status) && WTERMSIG(status) == SIGSEGV && i == LARGE;
}

/* A border of 4,096 codes, there and back from cell 0, and its stored form. */
static void make_border(uint32_t level) {
    uint32_t i;
    first_code = 0;
    while (ticklocust_step(level, 0, first_code, &walk[1])) first_code++;
    for (i = 0; i < WALK; i++) walk[i] = i % 2 ? walk[1] : 0;
    must(!ticklocust_border_write(level, walk, WALK, stored, STORED, &stored_length), "border");
}

int main(void) {
    int i, wrong = 0;
    mask[0] = 1;
    for (i = 0; i < CALLS; i++) {
        const struct call *call = &calls[i];
        size_t low, high, most;
        make_border(0);
        low = taken(call, 0);
        make_border(call->highest);
        high = taken(call, call->highest);
        most = low < high ? high : low;
        printf("stack of %-12s %6.1f KiB\n", call->name, (double)most / KIB);
        if (most > call->most * KIB) {
            printf("stack: %s took more than %zu KiB\n", call->name, call->most);
            wrong = 1;
        }
        if (call->most * KIB > SMALL && !ends_in_the_guard_page(call)) {
            printf("stack: %s with too little stack did not end in the guard page\n", call->name);
            wrong = 1;
        }
    }
    return wrong;
}
