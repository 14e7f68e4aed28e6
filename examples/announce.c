/* An announcement, from the microphone to the aid and to whoever doubts the aid: a name is encoded, disturbed on the way, decoded with a
 * decision sheet, and the sheet is checked, whole and damaged. examples/run builds and runs it. */
#include "plumtassel.h"

#include <stdio.h>
#include <string.h>

#define NAME "Room 7"
#define BITS (8 * (sizeof NAME - 1))
#define ROOM 2048

static const char *meaning(uint32_t number)
{
    static const char *const meanings[] = {
        "done", "code outside the rules", "a length not as stated", "no room", "allowance spent",
        "tied", "malformed", "the sheet does not carry its claim", "a reading is not finite", "sheet buffer too small"};
    return number < 10 ? meanings[number] : "unknown";
}

/* Bits of letters, highest first, and back. */
static void spread(const char *name, uint8_t *bits)
{
    for (size_t i = 0; i < BITS; i++)
        bits[i] = (uint8_t)(name[i / 8] >> (7 - i % 8) & 1);
}

static void gather(const uint8_t *bits, char *name)
{
    memset(name, 0, sizeof NAME);
    for (size_t i = 0; i < BITS; i++)
        name[i / 8] = (char)(name[i / 8] | bits[i] << (7 - i % 8));
}

/* A bit goes out as 24 or -24, and comes in with noise of up to 32 either way. */
static int8_t received(uint8_t bit, uint32_t *seed)
{
    *seed = *seed * 1664525u + 1013904223u;
    int noise = (int)(*seed >> 16) % 65 - 32;
    return (int8_t)((bit ? -24 : 24) + noise);
}

int main(void)
{
    static uint64_t work[PLUMTASSEL_WORDS_PER_NODE * ROOM];
    static uint8_t sheet[32807];
    uint8_t message[BITS], block[PLUMTASSEL_LONGEST_BLOCK], heard[BITS];
    int8_t symbols[PLUMTASSEL_LONGEST_BLOCK];
    char name[sizeof NAME];
    uint32_t seed = 7;
    plumtassel_code code = plumtassel_house(1);
    plumtassel_answer answer;

    spread(NAME, message);
    answer = plumtassel_encode(code, message, BITS, block, sizeof block);
    if (answer.number != PLUMTASSEL_DONE) {
        printf("encode   %u: %s\n", answer.number, meaning(answer.number));
        return 1;
    }
    size_t count = answer.length, wrong = 0;
    for (size_t i = 0; i < count; i++) {
        symbols[i] = received(block[i], &seed);
        wrong += (symbols[i] < 0) != block[i];
    }
    printf("sent     %s: %zu bits as %zu symbols\n", NAME, BITS, count);
    printf("arrived  %zu symbols on the wrong side of zero\n", wrong);

    answer = plumtassel_decode_sheet(code, BITS, symbols, count, ROOM, UINT32_MAX, work, sizeof work / sizeof *work, heard, sizeof heard,
                                     sheet, sizeof sheet);
    printf("decoded  %u: %s", answer.number, meaning(answer.number));
    if (answer.number != PLUMTASSEL_DONE) {
        printf(", metric %u, %u steps\n", answer.metric, answer.steps);
        return 1;
    }
    size_t length = answer.length;
    gather(heard, name);
    printf(", %s, metric %u, %u steps, a sheet of %zu bytes\n", name, answer.metric, answer.steps, length);

    memset(heard, 0, sizeof heard);
    answer = plumtassel_check(code, BITS, symbols, count, sheet, length, heard, sizeof heard);
    gather(heard, name);
    printf("checked  %u: %s, %s, metric %u\n", answer.number, meaning(answer.number), name, answer.metric);

    sheet[8] ^= 1; /* the metric's lowest bit */
    answer = plumtassel_check(code, BITS, symbols, count, sheet, length, heard, sizeof heard);
    printf("damaged  %u: %s\n", answer.number, meaning(answer.number));
    answer = plumtassel_check(code, BITS, symbols, count, sheet, length - 1, heard, sizeof heard);
    printf("cut      %u: %s\n", answer.number, meaning(answer.number));
    return 0;
}
