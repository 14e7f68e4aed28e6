/* How much stack each call uses: it runs on a painted stack, and what is no longer painted was used. The worst of many blocks is told:
 * four house codes, L 200, with noise light and heavy, room for all. examples/stack builds and runs it. */
#include "plumtassel.h"

#include <stdio.h>
#include <string.h>
#include <ucontext.h>

#define STACK (1 << 20)
#define PAINT 0xA5
#define ROOM PLUMTASSEL_LARGEST_ROOM
#define BITS PLUMTASSEL_LONGEST_MESSAGE

static _Alignas(4096) uint8_t stack[STACK];
static uint64_t work[PLUMTASSEL_WORDS_PER_NODE * ROOM];
static uint8_t sheet[65548], message[BITS], block[PLUMTASSEL_LONGEST_BLOCK], heard[BITS];
static int8_t symbols[PLUMTASSEL_LONGEST_BLOCK];
static float readings[PLUMTASSEL_LONGEST_BLOCK];
static plumtassel_code code;
static plumtassel_answer answer;
static size_t row, count, size;
static ucontext_t here, there;

static void house(void)
{
    code = plumtassel_house(row);
}

static void encode(void)
{
    answer = plumtassel_encode(code, message, BITS, block, sizeof block);
}

static void front(void)
{
    plumtassel_front_end end = {1, 0.5f, 2.0f, 0.0f};
    plumtassel_front(end, readings, count, symbols, sizeof symbols);
}

static void decode(void)
{
    answer = plumtassel_decode(code, BITS, symbols, count, ROOM, UINT32_MAX, work, sizeof work / sizeof *work, heard, sizeof heard);
}

static void decode_sheet(void)
{
    answer = plumtassel_decode_sheet(code, BITS, symbols, count, ROOM, UINT32_MAX, work, sizeof work / sizeof *work, heard, sizeof heard,
                                     sheet, sizeof sheet);
}

static void check(void)
{
    answer = plumtassel_check(code, BITS, symbols, count, sheet, size, heard, sizeof heard);
}

/* The bytes of the painted stack that one call leaves unpainted. */
static size_t used(void (*call)(void))
{
    size_t clean = 0;

    memset(stack, PAINT, sizeof stack);
    getcontext(&there);
    there.uc_stack.ss_sp = stack;
    there.uc_stack.ss_size = sizeof stack;
    there.uc_link = &here;
    makecontext(&there, call, 0);
    swapcontext(&here, &there);
    while (clean < sizeof stack && stack[clean] == PAINT)
        clean++;
    return sizeof stack - clean;
}

static void worst(size_t *most, void (*call)(void))
{
    size_t bytes = used(call);
    if (bytes > *most)
        *most = bytes;
}

int main(void)
{
    static const char *const names[] = {"house", "encode", "front", "decode", "decode_sheet", "check"};
    size_t most[6] = {0}, answered = 0, checked = 0;
    uint32_t seed = 1;

    for (row = 0; row < 4; row++)
        for (int noise = 40; noise <= 160; noise += 40)
            for (int turn = 0; turn < 4; turn++) {
                worst(&most[0], house);
                for (size_t i = 0; i < BITS; i++)
                    message[i] = (uint8_t)((seed = seed * 1664525u + 1013904223u) >> 31);
                worst(&most[1], encode);
                count = answer.length;
                for (size_t i = 0; i < count; i++) {
                    seed = seed * 1664525u + 1013904223u;
                    readings[i] = (block[i] ? -30.0f : 30.0f) + (float)((int)(seed >> 16) % (noise + 1) - noise / 2) / 2.0f;
                }
                worst(&most[2], front);
                worst(&most[3], decode);
                answered += answer.number == PLUMTASSEL_DONE;
                worst(&most[4], decode_sheet);
                size = answer.length;
                worst(&most[5], check);
                checked += answer.number == PLUMTASSEL_DONE;
            }
    for (size_t i = 0; i < 6; i++)
        printf("%-13s%6zu bytes\n", names[i], most[i]);
    printf("%zu of 64 blocks answered, %zu sheets accepted\n", answered, checked);
    return 0;
}
