#include "deck.h"

#include <string.h>

enum { HEAD = 2, NAME = 8, NUMBER = 4, MEMBERS = 32, LIBRARIES = 256 };

static const size_t DECK = 65536;

static const char *const MEANINGS[] = {
    "finished",
    "the deck is malformed",
    "a working room is too short",
    "wrong syntax, or a string or comment that is not closed",
    "a name is too long, or there are too many sentences, names, open parentheses or open groups",
    "a name is declared twice, or a parameter is listed twice",
    "a name is unknown or of the wrong kind",
    "a variable has no value yet",
    "a value cannot be converted",
    "a FIXED number is outside -99999 to 99999",
    "a division by zero",
    "a wrong count of arguments, or an argument list that is missing or not closed",
    "a procedure is called while it runs, or ends without RETURN",
    "a GOTO to a place where it may not go",
    "there is no member of that name",
    "too many levels of inclusion, replacement or procedure calls",
    "a value is longer than 512 places",
    "the text or its origin list is full",
    "the steps are used up",
    "SUBSTR reaches outside its string",
    "a body is no whole number of 80-byte records",
};

static void put_number(uint8_t *at, uint32_t number, size_t bytes)
{
    for (size_t k = 0; k < bytes; k++)
        at[k] = (uint8_t)(number >> (8 * k));
}

/* Puts a name padded with blanks: whether it is short enough. */
static int put_name(uint8_t *at, const char *name)
{
    size_t length = strlen(name);
    if (length > NAME)
        return 0;
    memset(at, ' ', NAME);
    memcpy(at, name, length);
    return 1;
}

/* How many bytes a deck of members has, or 0 if there can be none. */
static size_t size_of(const struct muharegoden_member *members, size_t count, size_t line)
{
    if (count < 1 || count > MEMBERS)
        return 0;
    size_t size = HEAD + line * count;
    for (size_t k = 0; k < count; k++) {
        if (members[k].size > DECK - size)
            return 0;
        size += members[k].size;
    }
    return size;
}

size_t muharegoden_pack(const struct muharegoden_member *members, size_t count, uint8_t *deck, size_t room)
{
    int libraries = count > 0 && members[0].library != NULL;
    size_t line = (size_t)(libraries ? 2 * NAME : NAME) + 2 * NUMBER;
    size_t size = size_of(members, count, line);
    if (size == 0 || size > room)
        return 0;
    put_number(deck, (uint32_t)(count + (libraries ? LIBRARIES : 0)), HEAD);
    uint8_t *at = deck + HEAD;
    size_t offset = HEAD + line * count;
    for (size_t k = 0; k < count; k++) {
        if ((members[k].library != NULL) != libraries)
            return 0;
        if (libraries && !put_name(at, members[k].library))
            return 0;
        if (!put_name(at + line - 2 * NUMBER - NAME, members[k].name))
            return 0;
        put_number(at + line - 2 * NUMBER, (uint32_t)offset, NUMBER);
        put_number(at + line - NUMBER, (uint32_t)members[k].size, NUMBER);
        if (members[k].size > 0)
            memcpy(deck + offset, members[k].body, members[k].size);
        at += line;
        offset += members[k].size;
    }
    return size;
}

const char *muharegoden_meaning(uint32_t number)
{
    return number < sizeof MEANINGS / sizeof *MEANINGS ? MEANINGS[number] : NULL;
}
