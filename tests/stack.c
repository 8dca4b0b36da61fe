/* tests/stack FILE..: makes each C call on each wiring file, on a stack of its own, and fails where a call used more of it than the
 * header says that it needs. */
#include <stdio.h>
#include <stdlib.h>
#include <string.h>
#include <ucontext.h>

#include "jolvente.h"

enum { ROOM = 1 << 20, PAINT = 0xa5 };

static uint8_t stack[ROOM];
static ucontext_t back, there;

static uint8_t wiring[JOLVENTE_WIRING_BYTES + 1], plan[JOLVENTE_PLAN_BYTES], met[JOLVENTE_MET_BYTES], record[JOLVENTE_RECORD_BYTES];
static size_t wiring_length, plan_length;
static uint32_t from, goal, caller;

static void nothing(void)
{
}

static void write_plan(void)
{
    jolvente_write_plan(wiring, wiring_length, plan, sizeof plan, record, sizeof record);
}

static void read_plan(void)
{
    jolvente_read_plan(plan, plan_length, record, sizeof record);
}

static void walk(void)
{
    jolvente_walk(plan, plan_length, from, goal, caller, met, sizeof met, record, sizeof record);
}

/* How many bytes of a painted stack a call changes. */
static size_t used(void (*call)(void))
{
    size_t lowest = 0;
    memset(stack, PAINT, sizeof stack);
    getcontext(&there);
    there.uc_stack.ss_sp = stack;
    there.uc_stack.ss_size = sizeof stack;
    there.uc_link = &back;
    makecontext(&there, call, 0);
    swapcontext(&back, &there);
    while (lowest < sizeof stack && stack[lowest] == PAINT)
        lowest++;
    return sizeof stack - lowest;
}

struct call {
    const char *name;
    void (*run)(void);
    size_t said, most;
};

static struct call calls[] = {
    {"jolvente_write_plan", write_plan, JOLVENTE_WRITE_PLAN_STACK, 0},
    {"jolvente_read_plan", read_plan, JOLVENTE_READ_PLAN_STACK, 0},
    {"jolvente_walk", walk, JOLVENTE_WALK_STACK, 0},
};

static void measure(struct call *call)
{
    size_t now = used(call->run) - used(nothing);
    if (now > call->most)
        call->most = now;
}

/* Plans a wiring, reads the plan, and walks from its first card to its last, as caller 0, and back, as caller 15. A wiring that is
 * refused leaves no plan. */
static void try_wiring(const char *name)
{
    FILE *file = fopen(name, "rb");
    uint32_t last;
    if (!file) {
        perror(name);
        exit(1);
    }
    wiring_length = fread(wiring, 1, sizeof wiring, file);
    fclose(file);
    measure(&calls[0]);
    plan_length = record[0] + 256u * record[1];
    last = plan_length ? plan[0] + 256u * plan[1] - 1 : 0;
    measure(&calls[1]);
    memset(record, 0, sizeof record);
    from = 0, goal = last, caller = 0;
    measure(&calls[2]);
    from = last, goal = 0, caller = 15;
    measure(&calls[2]);
}

int main(int argc, char **argv)
{
    int i, failures = 0;
    size_t call;
    for (i = 1; i < argc; i++)
        try_wiring(argv[i]);
    for (call = 0; call < sizeof calls / sizeof calls[0]; call++) {
        printf("stack: %s used %zu bytes of %zu\n", calls[call].name, calls[call].most, calls[call].said);
        if (calls[call].most == 0 || calls[call].most > calls[call].said)
            failures++;
    }
    return failures != 0;
}
