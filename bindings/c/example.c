/* Expands a program with a member, and prints what came out. */
#include <stdio.h>
#include <string.h>

#include "deck.h"
#include "muharegoden.h"

static const char MAIN[] = "%INCLUDE LIMITS;CALL RAMP(LOW, HIGH);";
static const char LIMITS[] = "%DCL (LOW, HIGH) FIXED;%LOW=500;%HIGH=900;";

static struct muharegoden_rooms rooms;
static uint8_t deck[65536], text[65536], list[4096 * MUHAREGODEN_LINE];

int main(void)
{
    const struct muharegoden_member members[] = {
        {NULL, "MAIN", (const uint8_t *)MAIN, strlen(MAIN)},
        {NULL, "LIMITS", (const uint8_t *)LIMITS, strlen(LIMITS)},
    };
    uint32_t numbers[MUHAREGODEN_NUMBERS];
    size_t size = muharegoden_pack(members, 2, deck, sizeof deck);
    if (size == 0)
        return 2;
    muharegoden_expand_in(&rooms, MUHAREGODEN_PLAIN, deck, size, text, sizeof text, list, sizeof list, 1000000, numbers);
    printf("%s: %u steps\n", muharegoden_meaning(numbers[MUHAREGODEN_NUMBER]), numbers[MUHAREGODEN_STEPS]);
    printf("%.*s\n", (int)numbers[MUHAREGODEN_TEXT_SIZE], (const char *)text);
    return numbers[MUHAREGODEN_NUMBER] != 0;
}
