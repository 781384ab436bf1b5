/* How deep the stack goes below a caller of the linked functions: each call runs on a stack that is painted first, and
 * the octet farthest down that has another colour afterwards tells. Arguments and return addresses are counted, and the
 * 24 octets or fewer that the function around the call takes. Prints the depth of each call and the deepest; ends with
 * 1 if that is more than the number given. */
#define _XOPEN_SOURCE 700
#include <pthread.h>
#include <stdio.h>
#include <stdlib.h>
#include <string.h>
#include "taxeedhuul.h"

enum { ROOM = 1 << 17, ENTRIES = 16, COLOUR = 0xa5 };

static unsigned char stack[ROOM] __attribute__((aligned(4096)));
static unsigned char *top;
static taxeedhuul_unit unit;
static uint8_t area[TAXEEDHUUL_MESSAGE_OCTETS], request[TAXEEDHUUL_MESSAGE_OCTETS], held[64];
static size_t length;
static uint64_t fields[TAXEEDHUUL_ANSWER_WORDS], tags[ENTRIES], passwords[ENTRIES];
static size_t starts[ENTRIES], lengths[ENTRIES];
static bool locked;

static size_t place;
static int kind;
static int32_t told; /* what the last call gave */

static void start(void) { told = taxeedhuul_unit_start(&unit, 1, true, true); }
static void respond(void) { told = taxeedhuul_unit_respond(&unit, 1, request, length, area, sizeof area); }
static void fit_tag(uint64_t tag)
{
    told = taxeedhuul_unit_fit(&unit, tag, 16, TAXEEDHUUL_BOTH, false, locked, 1, held, 8);
}
static void fit(void) { fit_tag(1ULL << 62 | 0x100); }
static void fit_denied(void) { fit_tag(0x100); }
static void put(void)
{
    size_t keys = locked ? ENTRIES : 0;
    switch (kind) {
    case 0: told = taxeedhuul_write_resource_information(area, sizeof area, 1, tags, ENTRIES); break;
    case 1: told = taxeedhuul_write_allocate(area, sizeof area, 1, 0x7700, 0, 16, locked, 1, held, 16); break;
    case 2: told = taxeedhuul_write_free(area, sizeof area, 1, tags[3], locked, 1); break;
    case 3: told = taxeedhuul_write_read(area, sizeof area, 1, tags[3], locked, 1); break;
    case 4: told = taxeedhuul_write_write(area, sizeof area, 1, tags[3], locked, 1, held, 16); break;
    case 5:
        told = taxeedhuul_write_bulk_read(area, sizeof area, 1, locked, tags, ENTRIES, passwords, keys);
        break;
    default:
        told = taxeedhuul_write_bulk_write(area, sizeof area, 1, locked, tags, ENTRIES, passwords, keys, starts,
                                           ENTRIES, lengths, ENTRIES, held, sizeof held);
    }
}
static void read_answer(void) { told = taxeedhuul_read_answer(request, length, fields, TAXEEDHUUL_ANSWER_WORDS); }
static void read_tag(void) { told = taxeedhuul_read_tag(request, length, place, fields, TAXEEDHUUL_TAG_WORDS); }
static void read_memory(void)
{
    told = taxeedhuul_read_memory_data(request, length, place, fields, TAXEEDHUUL_MEMORY_DATA_WORDS);
}
static void read_resource(void)
{
    told = taxeedhuul_read_resource(request, length, place, fields, TAXEEDHUUL_RESOURCE_WORDS);
}

/* The stack pointer of a function that is about to call: what is below it is the called one's, and its arguments. */
static void *on_painted(void *call)
{
    __asm__ volatile("mov %%rsp, %0" : "=r"(top));
    (*(void (**)(void))call)();
    return NULL;
}

static long depth(void (*call)(void))
{
    pthread_attr_t attributes;
    pthread_t thread;
    size_t i = 0;
    memset(stack, COLOUR, sizeof stack);
    if (pthread_attr_init(&attributes) || pthread_attr_setstack(&attributes, stack, sizeof stack)
        || pthread_create(&thread, &attributes, on_painted, &call) || pthread_join(thread, NULL))
        exit(2);
    while (i < sizeof stack && stack[i] == COLOUR)
        i++;
    return top - (stack + i);
}

/* Ends the program where a call did not do what it is measured for. */
static void hold(bool so)
{
    if (!so)
        exit(2);
}

/* What stands in the area is the next request, or the answer that is read next. */
static void keep(void)
{
    hold(told > 0);
    length = (size_t)told;
    memcpy(request, area, length);
}

static long deepest;

/* Measures a call, and leaves the unit as it was. */
static void tell(const char *name, void (*call)(void))
{
    taxeedhuul_unit before = unit;
    long n;
    call(); /* what the first call of memset takes to be linked is not counted */
    unit = before;
    n = depth(call);
    unit = before;
    if (deepest < n)
        deepest = n;
    printf("%-12s %ld\n", name, n);
}

/* Every operation on the unit, each from the same state and accepted, and the functions of the gate around it. */
static void tell_operations(void)
{
    static const char *const names[] = {"information", "allocate", "free", "read", "write", "bulk read", "bulk write"};
    taxeedhuul_unit before = unit;
    for (kind = 0; kind < 7; kind++) {
        tell("put", put);
        keep();
        tell(names[kind], respond);
        hold(told > 3 && area[1] == 1);
        keep();
        tell("told", read_answer);
        hold(told >= 128 && told < 255);
        place = (size_t)fields[TAXEEDHUUL_ANSWER_START];
        if (kind == 6)
            tell("tag", read_tag);
        if (kind == 5)
            tell("memory data", read_memory);
        if (kind == 0)
            tell("resource", read_resource);
        hold(told > 0);
    }
    unit = before;
}

/* Requests that are denied: cut ones, another version, data that is too long, a tag that is not registered. */
static void tell_denials(void)
{
    size_t whole;
    told = taxeedhuul_write_write(area, sizeof area, 1, tags[3], locked, 1, held, 17);
    keep();
    whole = length;
    for (length = 0; length <= whole; length++) {
        tell("denied", respond);
        hold(told > 3 && area[1] == 255);
    }
    told = taxeedhuul_write_read(area, sizeof area, 2, tags[3], locked, 1);
    keep();
    tell("denied", respond);
    hold(area[2] == TAXEEDHUUL_OTHER_VERSION);
    told = taxeedhuul_write_read(area, sizeof area, 1, 0x7700, locked, 1);
    keep();
    tell("denied", respond);
    hold(area[2] == TAXEEDHUUL_TAG);
    tell("fit denied", fit_denied);
    hold(told == -TAXEEDHUUL_TAG);
}

int main(int count, char **words)
{
    int form, i;
    tell("start", start);
    for (form = 0; form < 2; form++) {
        locked = form;
        start();
        for (i = 0; i < ENTRIES; i++) {
            tags[i] = (uint64_t)(i + 1) << 8;
            passwords[i] = 1;
            lengths[i] = 3;
            told = taxeedhuul_write_allocate(area, sizeof area, 1, tags[i], 0, 16, locked, 1, held, 0);
            keep();
            respond();
        }
        kind = 6;
        put();
        keep();
        respond();
        tell("fit", fit);
        hold(told == 0);
        tell_operations();
        tell_denials();
    }
    printf("deepest %ld\n", deepest);
    return count == 2 && atol(words[1]) < deepest;
}
