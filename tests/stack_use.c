/* The deepest stack use of each call, measured on a stack that was filled beforehand, against what access_node.h states. Standard input has
 * the calls, as the program corpus writes them (`corpus calls`); they reach every answer. Built without sanitizers, which use stack of their
 * own. */
#include "access_node.h"

#include <stdio.h>
#include <stdlib.h>
#include <string.h>
#include <ucontext.h>

/* NONE makes no call: it shows what a call would find in use. */
enum call { START, DELIVER, QUERY, CHECKPOINT, PAGE, IMPORT, EXPORT, SPLIT, MERGE, ADD, NONE, CALLS = NONE };

/* SPARE is what access_node.h promises to leave between the measured and the stated use. */
enum { INPUTS = 3, LONGEST = 65537, STACK = 65536, FILL = 0xA5, SPARE = 512 };

static const char *const names[CALLS] = {"node_start",        "node_deliver",       "node_query",         "node_checkpoint",
                                         "node_page",         "node_roster_import", "node_roster_export", "node_shares_split",
                                         "node_shares_merge", "node_shares_add"};
static const size_t input_counts[CALLS] = {2, 3, 2, 1, 1, 1, 1, 2, 2, 2};
static const size_t stated[CALLS] = {
    [START] = ACCESS_NODE_STACK_START,
    [DELIVER] = ACCESS_NODE_STACK_DELIVER,
    [QUERY] = ACCESS_NODE_STACK_QUERY,
    [CHECKPOINT] = ACCESS_NODE_STACK_CHECKPOINT,
    [PAGE] = ACCESS_NODE_STACK_PAGE,
    [IMPORT] = ACCESS_NODE_STACK_ROSTER_IMPORT,
    [EXPORT] = ACCESS_NODE_STACK_ROSTER_EXPORT,
    [SPLIT] = ACCESS_NODE_STACK_SHARES_SPLIT,
    [MERGE] = ACCESS_NODE_STACK_SHARES_MERGE,
    [ADD] = ACCESS_NODE_STACK_SHARES_ADD,
};

/* The call at hand; the output slice has room for every call, the page of a full list the most. */
static enum call call;
static uint8_t in[INPUTS][LONGEST];
static size_t length[INPUTS];
static uint32_t day, cycle, k, n;
static uint8_t out[ACCESS_NODE_PAGE_SIZE(ACCESS_NODE_MOST_LOGINS)];
static size_t room;

static uint8_t stack[STACK];
static ucontext_t caller;
static size_t deepest[CALLS];

static void make(void) {
    if (call == START)
        node_start(in[0], length[0], in[1], length[1], out, room);
    else if (call == DELIVER)
        node_deliver(in[0], length[0], in[1], length[1], in[2], length[2], out, room);
    else if (call == QUERY)
        node_query(in[0], length[0], in[1], length[1], out, room);
    else if (call == CHECKPOINT)
        node_checkpoint(in[0], length[0], out, room);
    else if (call == PAGE)
        node_page(in[0], length[0], day, out, room);
    else if (call == IMPORT)
        node_roster_import(in[0], length[0], cycle, day, out, room);
    else if (call == EXPORT)
        node_roster_export(in[0], length[0], out, room);
    else if (call == SPLIT)
        node_shares_split(in[0], length[0], k, n, in[1], length[1], out, room);
    else if (call == MERGE)
        node_shares_merge(k, n, in[0], length[0], in[1], length[1], out, room);
    else if (call == ADD)
        node_shares_add(in[0], length[0], in[1], length[1], out, room);
}

static void make_on_stack(void) {
    ucontext_t context;
    if (getcontext(&context) != 0)
        exit(2);
    context.uc_stack.ss_sp = stack;
    context.uc_stack.ss_size = sizeof stack;
    context.uc_link = &caller;
    makecontext(&context, make, 0);
    if (swapcontext(&caller, &context) != 0)
        exit(2);
}

/* How many bytes of the stack the call changed, from the deepest one up. */
static size_t bytes_used(void) {
    size_t unused = 0;
    memset(stack, FILL, sizeof stack);
    make_on_stack();
    while (unused < sizeof stack && stack[unused] == FILL)
        unused++;
    return sizeof stack - unused;
}

/* Less what is in use where no call is made. The first run is not measured: in it the dynamic linker may look up memcpy. */
static void measure(size_t output_length) {
    enum call made = call;
    call = NONE;
    size_t base = bytes_used();
    call = made;
    room = output_length;
    make_on_stack();
    size_t used = bytes_used() - base;
    if (used > deepest[call])
        deepest[call] = used;
}

/* The call, the same without room, and with each input slice a byte short, and malformed in its last byte. */
static void measure_all(void) {
    measure(sizeof out);
    measure(0);
    for (size_t i = 0; i < input_counts[call]; i++) {
        if (length[i] == 0)
            continue;
        uint8_t *last = &in[i][length[i] - 1], kept = *last;
        length[i]--;
        measure(sizeof out);
        length[i]++;
        *last = 255;
        measure(sizeof out);
        *last = kept;
    }
}

static uint32_t number_at(const uint8_t *bytes) {
    return bytes[0] | (uint32_t)bytes[1] << 8 | (uint32_t)bytes[2] << 16 | (uint32_t)bytes[3] << 24;
}

/* The next call: its number, three lengths, then the slices; the day of a page stands as a second slice, the day and the cycle of a roster as
 * one too, k and n of shares as a third. 0 at the end of the input. */
static int read_call(void) {
    uint8_t head[4 * (1 + INPUTS)];
    size_t numbers[1 + INPUTS], got = fread(head, 1, sizeof head, stdin);
    if (got == 0 && feof(stdin))
        return 0;
    for (size_t i = 0; i <= INPUTS; i++)
        numbers[i] = number_at(&head[4 * i]);
    int good = got == sizeof head && numbers[0] < CALLS;
    for (size_t i = 0; good && i < INPUTS; i++) {
        length[i] = numbers[1 + i];
        good = length[i] <= LONGEST && fread(in[i], 1, length[i], stdin) == length[i];
    }
    if (!good) {
        fprintf(stderr, "stack_use: standard input is not what corpus calls writes\n");
        exit(2);
    }
    call = (enum call)numbers[0];
    day = number_at(in[1]);
    cycle = number_at(in[1] + 4);
    k = number_at(in[2]);
    n = number_at(in[2] + 4);
    return 1;
}

/* Whether the call was measured, and stays below what is stated. */
static int is_stated(enum call c) {
    if (deepest[c] > 0 && deepest[c] + SPARE <= stated[c])
        return 1;
    printf("%s uses %zu bytes of stack, with %d to spare, and access_node.h states %zu\n", names[c], deepest[c], SPARE, stated[c]);
    return 0;
}

int main(void) {
    size_t calls = 0;
    for (; read_call(); calls++)
        measure_all();
    int good = 1;
    for (size_t c = 0; c < CALLS; c++)
        good &= is_stated((enum call)c);
    printf("stack use over %zu calls: start %zu, deliver %zu, query %zu, checkpoint %zu, page %zu, import %zu, export %zu, split %zu, "
           "merge %zu, add %zu bytes\n",
           calls, deepest[START], deepest[DELIVER], deepest[QUERY], deepest[CHECKPOINT], deepest[PAGE], deepest[IMPORT], deepest[EXPORT],
           deepest[SPLIT], deepest[MERGE], deepest[ADD]);
    return !good;
}
