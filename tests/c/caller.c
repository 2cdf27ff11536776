/* Calls the library from C and prints what it answers. */
#include <inttypes.h>
#include <stdio.h>
#include <string.h>

#include "transfer.h"

static void fault(const char *what, const uint8_t *bytes, size_t length) {
    printf("%s: %u\n", what, (unsigned)transfer_frame_fault(bytes, length));
}

static void least(uint32_t send, uint32_t receive, uint32_t life, uint32_t gap) {
    printf("least %" PRIu32 " %" PRIu32 " %" PRIu32 " %" PRIu32 ": %" PRIu32 "\n",
           send, receive, life, gap, transfer_least_numbers(send, receive, life, gap));
}

int main(void) {
    const uint8_t data[12] = {0x40, 0, 0, 1, 0x40, 0, 0, 0, 0, 0, 0, 0};
    const uint8_t heard[12] = {0x80, 2, 0, 1};
    const uint8_t end[12] = {0xc0, 0, 0, 2};
    const uint8_t none[12] = {0};
    const uint8_t wide[12] = {0x40, 1, 0, 1, 0x40, 0, 0, 0, 0, 0, 0, 0};
    const uint8_t late[12] = {0x80, 2, 0, 1, 0, 0, 0, 0, 0, 0, 0, 9};
    const uint8_t marked[12] = {0xc0, 0, 0, 2, 0, 0, 1, 0, 0, 0, 0, 0};
    uint8_t any[12];
    uint8_t longer[16];

    fault("data", data, sizeof data);
    fault("acknowledgement", heard, sizeof heard);
    fault("end mark", end, sizeof end);
    memset(any, 0xff, sizeof any);
    any[0] = 0x7f;
    fault("data with window bits", any, sizeof any);
    any[0] = 0x40;
    any[1] = 0;
    fault("data with a block of ones", any, sizeof any);
    fault("kind 00", none, sizeof none);
    fault("window bits in data", wide, sizeof wide);
    fault("a word in an acknowledgement", late, sizeof late);
    fault("a word in an end mark", marked, sizeof marked);
    fault("no bytes", data, 0);
    fault("no bytes at all", NULL, 0);
    fault("one byte", data, 1);
    fault("eleven bytes", data, 11);
    memset(longer, 0, sizeof longer);
    memcpy(longer, data, sizeof data);
    fault("thirteen bytes", longer, 13);
    fault("sixteen bytes", longer, 16);

    least(2, 2, 3, 2);
    least(1, 1, 1, 1);
    least(4096, 4096, 65535, 1);
    least(4096, 4096, 65535, 65535);
    least(1, 1, 4, 4);
    least(1, 1, 5, 4);
    least(0, 1, 1, 1);
    least(4097, 1, 1, 1);
    least(1, 0, 1, 1);
    least(1, 4097, 1, 1);
    least(1, 1, 0, 1);
    least(1, 1, 65536, 1);
    least(1, 1, 1, 0);
    least(1, 1, 1, 65536);
    least(UINT32_MAX, UINT32_MAX, UINT32_MAX, UINT32_MAX);
    return 0;
}
