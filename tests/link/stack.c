/* How deep each call goes: it is made on a stack of its own that was painted before, and what is no longer paint was used.  No call may
 * go deeper than the header says (STACK_KIB, taken from it).  The node is small and full, so that writes drop entries, with neighbours, and
 * collect in both regions; and of four requests one finds its page in the cache's trial part, and one in the protected part. */
#define _XOPEN_SOURCE 700
#include <stdbool.h>
#include <stdio.h>
#include <ucontext.h>
#include "trianglefire.h"

#define NODE 4, 2, 5, 3, 14, 4
#define STATE                                                                                                             \
    chip, TF_CHIP_WORDS(NODE), spare, TF_SPARE_WORDS(NODE), directory, TF_DIRECTORY_WORDS(NODE), cache, TF_CACHE_WORDS(NODE), \
        record, TF_RECORD_WORDS
#define COUNTS counts, TF_COUNTS_WORDS

enum { LOGICAL = 14, W = 2, REQUESTS = 512, FIELDS = 64, STACK_WORDS = 64 * 1024, PAINT = 0x5eabed };

static uint32_t chip[TF_CHIP_WORDS(NODE)], spare[TF_SPARE_WORDS(NODE)];
static uint32_t directory[TF_DIRECTORY_WORDS(NODE)], cache[TF_CACHE_WORDS(NODE)], record[TF_RECORD_WORDS];
static uint32_t counts[TF_COUNTS_WORDS], page[W];
static uint32_t requests[REQUESTS * TF_WORDS_IN_REQUEST], data[REQUESTS * W], answers[REQUESTS];
static uint8_t settings[TF_SETTINGS_BYTES + FIELDS * 4];
static uint32_t stack[STACK_WORDS];
static ucontext_t here, there;
static bool refused, erased, protected;

static uint32_t page_of(uint32_t i)
{
    return (i / 4 * 2 + (i % 4 == 1)) * 5 % LOGICAL;
}

static void format(void)
{
    refused |= tf_format(NODE, STATE, COUNTS) != TF_DONE;
}

static void check(void)
{
    refused |= tf_check(NODE, STATE, COUNTS) != TF_DONE;
}

static void run(void)
{
    refused |= tf_run(NODE, STATE, requests, REQUESTS * TF_WORDS_IN_REQUEST, data, REQUESTS * W, answers, REQUESTS, COUNTS) != TF_DONE;
}

static void write_all(void)
{
    for (uint32_t i = 0; i < REQUESTS; i++) {
        refused |= tf_write(NODE, page_of(i), STATE, page, W, COUNTS) != TF_DONE;
        erased |= counts[TF_COUNTS_ERASES] > 1;
        protected |= record[TF_RECORD_PROTECTED] == 2;
    }
}

static void read_all(void)
{
    for (uint32_t i = 0; i < REQUESTS; i++)
        refused |= tf_read(NODE, page_of(i), STATE, page, W, COUNTS) != TF_DONE;
}

static void settings_write(void)
{
    refused |= tf_settings_write(NODE, settings, TF_SETTINGS_BYTES) != TF_SETTINGS_ACCEPTED;
}

/* With fields of a higher tag to skip, of one byte each. */
static void settings_read(void)
{
    uint32_t numbers[TF_SETTINGS_NUMBERS];
    refused |= tf_settings_read(settings, sizeof settings, numbers, TF_SETTINGS_NUMBERS) != TF_SETTINGS_ACCEPTED;
}

/* Makes the calls on the painted stack; says how many bytes of it they used. */
static size_t depth(void (*calls)(void))
{
    for (size_t i = 0; i < STACK_WORDS; i++)
        stack[i] = PAINT;
    getcontext(&there);
    there.uc_stack.ss_sp = stack;
    there.uc_stack.ss_size = sizeof stack;
    there.uc_link = &here;
    makecontext(&there, calls, 0);
    swapcontext(&here, &there);
    size_t left = 0;
    while (left < STACK_WORDS && stack[left] == PAINT)
        left++;
    return (STACK_WORDS - left) * sizeof *stack;
}

int main(void)
{
    for (uint32_t i = 0; i < REQUESTS; i++) {
        requests[2 * i] = i % 3 == 0 ? TF_KIND_READ : TF_KIND_WRITE;
        requests[2 * i + 1] = page_of(i);
    }
    for (size_t at = TF_SETTINGS_BYTES; at < sizeof settings; at += 4) {
        settings[at] = 8;
        settings[at + 2] = 1;
    }
    const struct { const char *name; void (*calls)(void); } made[] = {
        {"format", format}, {"write", write_all}, {"read", read_all}, {"run", run}, {"check", check},
        {"settings write", settings_write}, {"settings read", settings_read}};
    size_t most = 0;
    printf("link: bytes of stack:");
    for (size_t i = 0; i < sizeof made / sizeof *made; i++) {
        size_t bytes = depth(made[i].calls);
        most = bytes > most ? bytes : most;
        printf(" %s %zu%s", made[i].name, bytes, i + 1 < sizeof made / sizeof *made ? "," : "\n");
    }
    if (refused || !erased || !protected) {
        puts(refused ? "error: a call was refused"
                     : erased ? "error: the protected part was never full" : "error: no write collected in both regions");
        return 1;
    }
    if (most > STACK_KIB * 1024) {
        printf("error: a call uses %zu bytes of stack, and the header says %d KiB\n", most, STACK_KIB);
        return 1;
    }
    return 0;
}
