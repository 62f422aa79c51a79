/* What a host reads of a reply to GET CONFIGURATION, here to type 2 of feature 002Bh, and of one that was cut. */
#include "gladhamre_configuration.h"
#include <stdio.h>

int main(void)
{
    const uint8_t reply[16] = {0, 0, 0, 12, 0, 0, 0x00, 0x1B, 0x00, 0x2B, 0x05, 4, 1, 0, 0, 0};
    uint32_t words[GLADHAMRE_CONFIGURATION_WORDS];

    if (gladhamre_configuration(reply, sizeof reply, words, GLADHAMRE_CONFIGURATION_WORDS) != GLADHAMRE_CONFIGURATION_READ) {
        return 1;
    }
    printf("profile %04lX, features:", (unsigned long)words[GLADHAMRE_CONFIGURATION_PROFILE]);
    for (uint32_t i = 0; i < words[GLADHAMRE_CONFIGURATION_COUNT]; i++) {
        printf(" %04lX", (unsigned long)words[GLADHAMRE_CONFIGURATION_FIRST_FEATURE + i]);
    }
    printf("\ncut to 8 bytes: %lu\n",
           (unsigned long)gladhamre_configuration(reply, 8, words, GLADHAMRE_CONFIGURATION_WORDS));
    return 0;
}
