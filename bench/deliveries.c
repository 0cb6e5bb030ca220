// A log as a rough pass delivers it, the same way each time: `deliveries MISSED` reads a log's blocks on standard input and writes strings.
// On the way some come damaged, twice, too early, with another log's number or with a wrong content under a right check, and at the end
// stands half a block. The last MISSED blocks do not come in their turn, but the very last comes first of all, so that they are missed.
#include "kinds.h"

// A code that no record has, nor will have when records are added.
enum { MOST_BLOCKS = 4096, NO_RECORD = 0xFF };

static uint8_t blocks[MOST_BLOCKS * BLOCK];

static void send(const uint8_t *block)
{
    write_all(STDOUT_FILENO, block, BLOCK);
}

// The block with a byte changed, and the check of what it is then.
static void send_changed(const uint8_t *block, size_t at, uint8_t byte)
{
    uint8_t changed[BLOCK];
    memcpy(changed, block, BLOCK);
    changed[at] = byte;
    store16(changed + CHECK_AT, check_of(changed, CHECK_AT));
    send(changed);
}

static void send_damaged(const uint8_t *block, size_t at)
{
    uint8_t damaged[BLOCK];
    memcpy(damaged, block, BLOCK);
    damaged[at] ^= 0x10;
    send(damaged);
}

// The last number that a block's four bytes can hold: no block has it.
static void send_past_all(const uint8_t *block)
{
    uint8_t past[BLOCK];
    memcpy(past, block, BLOCK);
    store32(past + 4, UINT32_MAX);
    store16(past + CHECK_AT, check_of(past, CHECK_AT));
    send(past);
}

// What comes before the k-th of n blocks comes.
static void send_before(size_t k, size_t n)
{
    const uint8_t *block = blocks + k * BLOCK;
    switch (k % 17) {
    case 1: send_damaged(block, k % BLOCK); break;
    case 3: send_changed(block, 3, (uint8_t)(block[3] + 1)); break;
    case 5: send_changed(block, RECORDS_AT + 1, NO_RECORD); break;
    case 7: send_changed(block, 9, PLACES + 1); break;
    case 9: send_changed(block, 13, (uint8_t)(block[13] + 1)); break;
    case 11: send_past_all(block); break;
    case 13: send(blocks + (k + 1 < n ? k + 1 : k) * BLOCK); break;
    case 15: send(blocks); break;
    default: break;
    }
}

int main(int argc, char **argv)
{
    size_t missed = argc == 2 ? strtoul(argv[1], NULL, 10) : 0;
    size_t n = read_full(STDIN_FILENO, blocks, sizeof blocks) / BLOCK;
    make_check_table();
    if (missed > 0 && n > 0)
        send(blocks + (n - 1) * BLOCK);
    for (size_t k = 0; k + missed < n; k++) {
        send_before(k, n);
        send(blocks + k * BLOCK);
    }
    write_all(STDOUT_FILENO, blocks, n > 0 ? BLOCK / 2 : 0);
    return 0;
}
