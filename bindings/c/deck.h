/* Decks and words for callers in C: what the library itself does not do. */
#ifndef MUHAREGODEN_DECK_H
#define MUHAREGODEN_DECK_H

#include <stddef.h>
#include <stdint.h>

#ifdef __cplusplus
extern "C" {
#endif

/* A member. Its library is null in a deck without libraries; in one deck all members have one, or none has. */
struct muharegoden_member {
    const char *library;
    const char *name;
    const uint8_t *body;
    size_t size;
};

/*
 * Writes the deck of members, the first the main program, and returns its size; 0, and nothing of use is written, if
 * there are not 1 to 32 of them, a name is longer than 8 bytes, or the deck has no place in the room. Whether the names
 * are identifiers, and distinct whatever their case, is for the expander to say: it refuses the deck with 1 if not.
 */
size_t muharegoden_pack(const struct muharegoden_member *members, size_t count, uint8_t *deck, size_t room);

/* What a number means, "finished" for 0; null for a number that no answer has. */
const char *muharegoden_meaning(uint32_t number);

#ifdef __cplusplus
}
#endif

#endif
