/* Muharegoden: expands PL/I source with compile-time statements. docs/CALLING.md has an example. */
#ifndef MUHAREGODEN_H
#define MUHAREGODEN_H

#include <stddef.h>
#include <stdint.h>

#ifdef __cplusplus
extern "C" {
#endif

/* The least lengths of the working rooms, in elements of their type. Longer ones do no harm. */
#define MUHAREGODEN_ROWS 32768u
#define MUHAREGODEN_NAMES 4096u
#define MUHAREGODEN_CELLS 256u
#define MUHAREGODEN_LOW 65536u
#define MUHAREGODEN_HIGH 65536u
#define MUHAREGODEN_WORK 65536u
#define MUHAREGODEN_JOINED 65536u

/* The bytes of stack that a call may take below its caller. Where there is less, as in a Rust thread unless its size is
 * set, a deck can make the process die by a signal. docs/CALLING.md says how a thread gets so much. */
#define MUHAREGODEN_STACK 4194304u

/* What the bodies of a deck are. Any other number is taken as cards. */
#define MUHAREGODEN_PLAIN 0u    /* source as it stands */
#define MUHAREGODEN_CARDS 1u    /* records of 80 bytes without line ends, source in columns 2 to 72 */

/* The bytes of one line of the list: kind, member, two zeros, offset (4), length (4), numbers little-endian. */
#define MUHAREGODEN_LINE 12u

/* What stands in numbers[], in this order. */
enum muharegoden_number {
    MUHAREGODEN_NUMBER,     /* 0: finished; 1 to 20: refused */
    MUHAREGODEN_MEMBER,     /* where it was refused: the member, */
    MUHAREGODEN_OFFSET,     /* and the place in its body as given */
    MUHAREGODEN_STEPS,      /* steps charged */
    MUHAREGODEN_TEXT_SIZE,  /* bytes of text */
    MUHAREGODEN_LINES,      /* lines of the list */
    MUHAREGODEN_NUMBERS     /* how many numbers there are */
};

/*
 * Expands a deck. Every length is a count of elements, and any is allowed: any bytes of any length are a deck, and
 * a working room that is too short is refused with number 2. The call always returns, if its thread has
 * MUHAREGODEN_STACK bytes of stack left.
 *
 * cards     says whether the deck is plain (0) or its bodies are card images.
 * text      gets the text: numbers[MUHAREGODEN_TEXT_SIZE] bytes, and zeros from there to its end.
 * list      gets the lines: numbers[MUHAREGODEN_LINES] of MUHAREGODEN_LINE bytes, and zeros from there to its end.
 * rows, names, cells, low, high, work, joined
 *           are working rooms. What they hold before does not matter; afterwards they are zero, whatever their length.
 * steps     is how many steps may be charged.
 * numbers   gets the six numbers, or as many as it has room for; what lies behind them stays.
 *
 * After a refusal the text size and the lines are 0, and text and list are all zero.
 *
 * The caller sees to it that each pointer is aligned, is not null even where its length is 0, and has that many
 * elements behind it, and that what is written (all but the deck) overlaps nothing else that is passed.
 *
 * There is no global state and no allocation: calls may run at the same time, in any threads, if no room is shared.
 */
void muharegoden_expand(
    uint32_t cards,
    const uint8_t *deck, size_t deck_size,
    uint8_t *text, size_t text_size,
    uint8_t *list, size_t list_size,
    uint16_t *rows, size_t rows_size,
    uint16_t *names, size_t names_size,
    uint32_t *cells, size_t cells_size,
    uint8_t *low, size_t low_size,
    uint8_t *high, size_t high_size,
    uint8_t *work, size_t work_size,
    uint8_t *joined, size_t joined_size,
    uint32_t steps,
    uint32_t *numbers, size_t numbers_size);

/* All working rooms in one. It has some 330,000 bytes: too many for most stacks, so make it static or allocate it. */
struct muharegoden_rooms {
    uint32_t cells[MUHAREGODEN_CELLS];
    uint16_t rows[MUHAREGODEN_ROWS];
    uint16_t names[MUHAREGODEN_NAMES];
    uint8_t low[MUHAREGODEN_LOW];
    uint8_t high[MUHAREGODEN_HIGH];
    uint8_t work[MUHAREGODEN_WORK];
    uint8_t joined[MUHAREGODEN_JOINED];
};

/* The same call with its working rooms in one place, and room for all six numbers. */
static inline void muharegoden_expand_in(
    struct muharegoden_rooms *rooms, uint32_t cards,
    const uint8_t *deck, size_t deck_size,
    uint8_t *text, size_t text_size,
    uint8_t *list, size_t list_size,
    uint32_t steps, uint32_t *numbers)
{
    muharegoden_expand(cards, deck, deck_size, text, text_size, list, list_size,
        rooms->rows, MUHAREGODEN_ROWS, rooms->names, MUHAREGODEN_NAMES, rooms->cells, MUHAREGODEN_CELLS,
        rooms->low, MUHAREGODEN_LOW, rooms->high, MUHAREGODEN_HIGH, rooms->work, MUHAREGODEN_WORK,
        rooms->joined, MUHAREGODEN_JOINED, steps, numbers, MUHAREGODEN_NUMBERS);
}

#ifdef __cplusplus
}
#endif

#endif
