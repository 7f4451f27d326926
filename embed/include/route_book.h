/* A store of places, routes of stops and marks, which answers lines of text. Its language is that
 * of the program `route_book`, which docs/MODEL.md lists: `place 50 oak`, `start 1`, `walk 4`, and
 * 14 more.
 *
 * A store is made of zeros: `struct route_book book = {0};`. It keeps nothing then, and each call
 * says so by ROUTE_BOOK_NO_BOOK. `route_book_new` puts a store into it, and `route_book_free` frees
 * that. What the two fields hold is the library's own: never write them, never copy the struct once
 * it is made, and use it from one thread at a time. Pointers are never NULL, also those to arrays
 * of length 0, and no two that a call gets overlap. */
#ifndef ROUTE_BOOK_H
#define ROUTE_BOOK_H

#include <stdbool.h>
#include <stddef.h>
#include <stdint.h>

#ifdef __cplusplus
extern "C" {
#endif

struct route_book {
    void *at;
    bool is_made;
};

/* What a call answers. After any but ROUTE_BOOK_OK and ROUTE_BOOK_SHORT nothing has changed, and
 * nothing was written. */
enum route_book_status {
    ROUTE_BOOK_OK = 0,
    ROUTE_BOOK_NO_MEMORY = 1, /* malloc refused */
    ROUTE_BOOK_TOO_LARGE = 2, /* the rooms together are past 4,294,967,295 */
    ROUTE_BOOK_NO_BOOK = 5,   /* the struct keeps no store */
    ROUTE_BOOK_MADE = 6,      /* the struct keeps a store already */
    ROUTE_BOOK_SHORT = 7      /* a line had no room for its reply */
};

/* The room that is enough for the reply to each line but `all` and `walk`. */
#define ROUTE_BOOK_LINE 59

/* Makes an empty store with room for so many places, stops and marks. It takes all its memory now,
 * and none later. Answers OK, NO_MEMORY, TOO_LARGE or MADE. */
uint8_t route_book_new(struct route_book *book, size_t places, size_t stops, size_t marks);

/* Frees the store, if there is one, with its memory. The struct then keeps none; a second call does
 * nothing. */
void route_book_free(struct route_book *book);

/* Writes how many places live. Answers OK or NO_BOOK. */
uint8_t route_book_places(struct route_book *book, size_t *count);

/* Writes how many stops live. Answers OK or NO_BOOK. */
uint8_t route_book_stops(struct route_book *book, size_t *count);

/* Writes how many marks live. Answers OK or NO_BOOK. */
uint8_t route_book_marks(struct route_book *book, size_t *count);

/* Moves all items to the front of their memory, as the line `pack` does. It changes no reply, and
 * takes no memory. Answers OK or NO_BOOK. */
uint8_t route_book_pack(struct route_book *book);

/* Carries out the lines of the input that an LF ends, one after another, and writes their replies
 * from the front of the room on. `*taken` is then how many bytes of the input those lines are, and
 * `*written` how many bytes of the room their replies are. What follows the last LF is never taken:
 * give it again, with what comes behind it. Of a long one 70 bytes are enough, since a line of more
 * than 69 is answered `bad`. No memory is taken.
 *
 * A line is carried out if its reply has room: a list (`all`, `walk`) as much as it takes, and each
 * other line ROUTE_BOOK_LINE bytes. A line that is not carried out changes nothing.
 *
 * Answers OK if all such lines are carried out; behind the replies the room is as it was. Answers
 * SHORT if the next line has no room for its reply: that line is not carried out, and behind the
 * replies the room may hold anything. Use the replies, and go on with `input + *taken`. If nothing
 * was taken in a room of ROUTE_BOOK_LINE bytes or more, the line is a list that wants a larger
 * room. Answers NO_BOOK if there is no store, and writes nothing. */
uint8_t route_book_run(struct route_book *book, const uint8_t *input, size_t input_length,
                       uint8_t *room, size_t room_length, size_t *taken, size_t *written);

/* A new store with these rooms answers the whole input, and is gone, as the program `route_book`
 * does. What follows the last LF is answered `bad`. `*taken` and `*written` are as at
 * `route_book_run`.
 *
 * Answers OK if all is answered, and SHORT if a line has no room for its reply: the replies to the
 * lines before it are written. Or it answers NO_MEMORY or TOO_LARGE, and writes nothing. */
uint8_t route_book_answer(size_t places, size_t stops, size_t marks, const uint8_t *input,
                          size_t input_length, uint8_t *room, size_t room_length, size_t *taken,
                          size_t *written);

#ifdef __cplusplus
}
#endif

#endif
