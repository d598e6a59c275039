/* A host: plays the sample of document 01 and prints a line for each call, as the program `play` does. */
#include "savorylatch.h"

#include <stdio.h>

static savorylatch_agent agent;
static uint8_t store[SAVORYLATCH_STORE], answer[SAVORYLATCH_ANSWER];

/* Stream 3 opens, arbitrates for role 0 of device 1 with id 5, closes, and closes again. */
static const struct {
    size_t length;
    uint8_t bytes[28];
} frames[] = {
    {2, {0x01, 3}},
    {28, {0x03, 3, 0, 0, 0, 0, 0, 0, 0, 1, 0, 1, 0, 0, 0, 0, 0, 0, 0, 0, 0, 0, 0, 0, 0, 0, 0, 5}},
    {2, {0x02, 3}},
    {2, {0x02, 3}},
};

int main(void) {
    savorylatch_new(&agent, 1);
    for (size_t k = 0; k < sizeof frames / sizeof frames[0]; k++) {
        uint8_t reason = savorylatch_call(&agent, frames[k].bytes, frames[k].length, store, sizeof store, answer, sizeof answer);
        int records = answer[2] * 256 + answer[3];
        printf("%zu %d %d %d", k + 1, reason, answer[1], records);
        for (int i = 0; i < 20 * records; i++) printf(i % 20 ? "%02x" : " %02x", answer[4 + i]);
        printf("\n");
    }
    return 0;
}
