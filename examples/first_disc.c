/* The first commands of a disc: WRITE, SYNCHRONIZE CACHE, a READ, and a READ of a sector that is neither recorded nor pending. */
#include "gladhamre.h"
#include <stdio.h>
#include <string.h>

enum { CAPACITY = 256, SECTORS = 20 };

static uint32_t state[GLADHAMRE_STATE_WORDS];
static uint8_t medium[CAPACITY * GLADHAMRE_BLOCK_LENGTH];
static uint8_t pending[GLADHAMRE_BLOCK_LENGTH];
static uint8_t data[SECTORS * GLADHAMRE_SECTOR_LENGTH];
static uint8_t reply[SECTORS * GLADHAMRE_SECTOR_LENGTH];

/* Sends a command block with so many bytes of data, prints what comes of it, and gives the answer's number. */
static uint32_t command(const char *name, const uint8_t *cdb, size_t data_length)
{
    uint64_t reply_count, recorded;
    uint32_t number = gladhamre_command(cdb, GLADHAMRE_COMMAND_LENGTH, data, data_length,
                                        state, GLADHAMRE_STATE_WORDS, medium, sizeof medium,
                                        pending, sizeof pending, reply, sizeof reply,
                                        &reply_count, &recorded);
    printf("%-18s answer %06lX, %lu bytes of reply, %lu blocks recorded\n", name,
           (unsigned long)number, (unsigned long)reply_count, (unsigned long)recorded);
    return number;
}

int main(void)
{
    const uint8_t write[GLADHAMRE_COMMAND_LENGTH] = {0x2A, 0, 0, 0, 0, 0, 0, 0, SECTORS};
    const uint8_t synchronize[GLADHAMRE_COMMAND_LENGTH] = {0x35};
    const uint8_t read[GLADHAMRE_COMMAND_LENGTH] = {0x28, 0, 0, 0, 0, 0, 0, 0, SECTORS};
    const uint8_t read_blank[GLADHAMRE_COMMAND_LENGTH] = {0x28, 0, 0, 0, 0, 32, 0, 0, 1};

    memset(data, 0xA1, sizeof data);
    if (gladhamre_blank(CAPACITY, state, GLADHAMRE_STATE_WORDS) != GLADHAMRE_ACCEPTED
        || command("WRITE 0 of 20", write, sizeof data) != GLADHAMRE_ACCEPTED
        || command("SYNCHRONIZE CACHE", synchronize, 0) != GLADHAMRE_ACCEPTED
        || command("READ 0 of 20", read, 0) != GLADHAMRE_ACCEPTED
        || memcmp(reply, data, sizeof data) != 0
        || command("READ 32 of 1", read_blank, 0) != GLADHAMRE_BLANK_CHECK) {
        return 1;
    }
    return 0;
}
