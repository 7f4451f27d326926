/* Each call of the store in C: what it answers, writes and leaves, an input cut at every length and
 * answered in rooms of every size, and each request for memory refused in turn. */
#include "route_book.h"

#include <stdio.h>
#include <stdlib.h>
#include <string.h>

#define CHECK(t)                                                                                   \
    do {                                                                                           \
        if (!(t)) {                                                                                \
            printf("failed: %s, line %d\n", #t, __LINE__);                                         \
            exit(1);                                                                               \
        }                                                                                          \
    } while (0)

/* The n-th request for memory from now on is refused; none if it is 0. */
static unsigned refused_request;

struct tried {
    bool is_given;
    void *block;
};

static char nothing;

static bool is_refused(void) { return refused_request && --refused_request == 0; }

struct tried rattle_alloc(size_t size, size_t align) {
    void *block = is_refused() ? NULL : malloc(size ? size : align);
    return block ? (struct tried){true, block} : (struct tried){false, &nothing};
}

struct tried rattle_realloc(void *block, size_t kept, size_t size, size_t align) {
    (void)kept;
    void *moved = is_refused() ? NULL : realloc(block, size ? size : align);
    return moved ? (struct tried){true, moved} : (struct tried){false, &nothing};
}

void rattle_dealloc(void *block) { free(block); }

enum { ROOM = 4096 };

static const char INPUT[] = "place 50 oak\nplace 30 elm\nplace 40 ash near 2\nall\nstart 1\n"
                            "extend 4 2\nwalk 4\nmark 3 5\nshow 6\nremove 1\nshow 4\nwalk 4\n"
                            "place 1 a\nwalk 9\nfirst\nword 2 fir\nfloor 35\nfind 40\npack\n"
                            "show 4\nall\nplace 2 b\nplace 3 c\nplace 4 d\n";

static const char REPLIES[] = "1\n2\n3\n2 30 elm\n3 40 ash\n1 50 oak\nend\n4\n5\n4 1\n5 2\nend\n6\n"
                              "3 5\nok\nat gone\n4 gone\n5 2\nend\n7\nunknown\nbad\nold elm\n2\n3\n"
                              "ok\nat gone\n7 1 a\n2 30 fir\n3 40 ash\nend\n8\n9\nfull\n";

static const uint8_t *bytes(const char *text) { return (const uint8_t *)text; }

static bool holds(const uint8_t *room, size_t written, const char *text) {
    return written == strlen(text) && memcmp(room, text, written) == 0;
}

/* Carries out whole lines in a room of which nothing is left out. */
static void answers(struct route_book *book, const char *input, const char *replies) {
    uint8_t room[ROOM];
    size_t taken, written;
    memset(room, 7, sizeof room);
    CHECK(route_book_run(book, bytes(input), strlen(input), room, ROOM, &taken, &written) ==
          ROUTE_BOOK_OK);
    CHECK(taken == strlen(input) && holds(room, written, replies));
    for (size_t k = written; k < ROOM; k++)
        CHECK(room[k] == 7);
}

static void has(struct route_book *book, size_t places, size_t stops, size_t marks) {
    size_t found[3];
    CHECK(route_book_places(book, &found[0]) == ROUTE_BOOK_OK && found[0] == places);
    CHECK(route_book_stops(book, &found[1]) == ROUTE_BOOK_OK && found[1] == stops);
    CHECK(route_book_marks(book, &found[2]) == ROUTE_BOOK_OK && found[2] == marks);
}

static void without_a_book(void) {
    struct route_book book = {0};
    uint8_t room[ROOM] = {5};
    size_t taken = 3, written = 4, count = 9;
    CHECK(route_book_places(&book, &count) == ROUTE_BOOK_NO_BOOK && count == 9);
    CHECK(route_book_stops(&book, &count) == ROUTE_BOOK_NO_BOOK && count == 9);
    CHECK(route_book_marks(&book, &count) == ROUTE_BOOK_NO_BOOK && count == 9);
    CHECK(route_book_pack(&book) == ROUTE_BOOK_NO_BOOK);
    CHECK(route_book_run(&book, bytes("all\n"), 4, room, ROOM, &taken, &written) ==
          ROUTE_BOOK_NO_BOOK);
    CHECK(taken == 3 && written == 4 && room[0] == 5);
    route_book_free(&book);
    CHECK(book.at == NULL && !book.is_made);
}

static void made_and_refused(void) {
    struct route_book book = {0};
    CHECK(route_book_new(&book, 4294967295u, 1, 0) == ROUTE_BOOK_TOO_LARGE);
    CHECK(route_book_new(&book, SIZE_MAX, SIZE_MAX, 2) == ROUTE_BOOK_TOO_LARGE);
    CHECK(book.at == NULL && !book.is_made);
    CHECK(route_book_new(&book, 0, 0, 0) == ROUTE_BOOK_OK);
    answers(&book, "place 1 a\nall\n", "full\nend\n");
    route_book_free(&book);
    CHECK(route_book_new(&book, 2, 1, 1) == ROUTE_BOOK_OK);
    CHECK(route_book_new(&book, 4, 4, 4) == ROUTE_BOOK_MADE);
    answers(&book, "place 1 a\nplace 2 b\nplace 3 c\n", "1\n2\nfull\n");
    CHECK(route_book_new(&book, SIZE_MAX, 4, 4) == ROUTE_BOOK_MADE);
    has(&book, 2, 0, 0);
    route_book_free(&book);
    route_book_free(&book);
}

static void lines(void) {
    struct route_book book = {0};
    CHECK(route_book_new(&book, 5, 4, 2) == ROUTE_BOOK_OK);
    has(&book, 0, 0, 0);
    answers(&book, INPUT, REPLIES);
    has(&book, 5, 2, 1);
    CHECK(route_book_pack(&book) == ROUTE_BOOK_OK);
    has(&book, 5, 2, 1);
    answers(&book, "show 6\nwalk 5\nmark 3 5\nshow 4\n", "3 5\n5 2\n4 gone\nend\n10\nat gone\n");
    has(&book, 5, 2, 2);
    answers(&book, "", "");
    route_book_free(&book);
}

/* The input in pieces: what a call does not take is given again, with the next piece. */
static void pieces(void) {
    size_t length = strlen(INPUT);
    for (size_t piece = 1; piece <= length; piece++) {
        struct route_book book = {0};
        uint8_t room[ROOM];
        size_t begun = 0, given = 0, all = 0, taken, written;
        CHECK(route_book_new(&book, 5, 4, 2) == ROUTE_BOOK_OK);
        while (given < length) {
            given = given + piece < length ? given + piece : length;
            CHECK(route_book_run(&book, bytes(INPUT) + begun, given - begun, room + all, ROOM - all,
                                 &taken, &written) == ROUTE_BOOK_OK);
            begun += taken;
            all += written;
        }
        CHECK(begun == length && holds(room, all, REPLIES));
        route_book_free(&book);
    }
}

/* In a room of each size: a line that has none is not carried out, and goes on in the next. */
static void rooms(void) {
    size_t length = strlen(INPUT);
    for (size_t size = 0; size < 200; size++) {
        struct route_book book = {0};
        uint8_t room[ROOM], status;
        size_t begun = 0, all = 0, taken = 1, written;
        CHECK(route_book_new(&book, 5, 4, 2) == ROUTE_BOOK_OK);
        do {
            status = route_book_run(&book, bytes(INPUT) + begun, length - begun, room + all, size,
                                    &taken, &written);
            CHECK(status == ROUTE_BOOK_OK || status == ROUTE_BOOK_SHORT);
            CHECK(written <= size);
            begun += taken;
            all += written;
        } while (status == ROUTE_BOOK_SHORT && taken != 0);
        if (size < ROUTE_BOOK_LINE) {
            CHECK(begun == 0 && all == 0);
            has(&book, 0, 0, 0);
        } else {
            CHECK(status == ROUTE_BOOK_OK && begun == length && holds(room, all, REPLIES));
        }
        route_book_free(&book);
    }
}

/* A list wants as much room as it takes, to the byte. */
static void lists(void) {
    enum { COUNT = 40 };
    struct route_book book = {0};
    uint8_t room[ROOM];
    size_t taken, written, whole;
    CHECK(route_book_new(&book, COUNT, COUNT, 0) == ROUTE_BOOK_OK);
    for (int k = 1; k <= COUNT; k++) {
        char line[64], ticket[16];
        snprintf(line, sizeof line, "place %d word%d\n", k * 1000, k);
        snprintf(ticket, sizeof ticket, "%d\n", k);
        answers(&book, line, ticket);
    }
    CHECK(route_book_run(&book, bytes("all\n"), 4, room, ROOM, &taken, &whole) == ROUTE_BOOK_OK);
    for (size_t size = 0; size < whole; size++) {
        CHECK(route_book_run(&book, bytes("all\n"), 4, room, size, &taken, &written) ==
              ROUTE_BOOK_SHORT);
        CHECK(taken == 0 && written == 0);
    }
    CHECK(route_book_run(&book, bytes("all\n"), 4, room, whole, &taken, &written) ==
          ROUTE_BOOK_OK);
    CHECK(taken == 4 && written == whole);
    answers(&book, "start 1\n", "41\n");
    CHECK(route_book_run(&book, bytes("walk 41\n"), 8, room, 8, &taken, &written) ==
          ROUTE_BOOK_SHORT);
    CHECK(route_book_run(&book, bytes("walk 41\n"), 8, room, 9, &taken, &written) ==
          ROUTE_BOOK_OK);
    CHECK(holds(room, written, "41 1\nend\n"));
    CHECK(route_book_run(&book, bytes("walk 1\n"), 7, room, 5, &taken, &written) == ROUTE_BOOK_OK);
    CHECK(holds(room, written, "kind\n"));
    route_book_free(&book);
}

/* The longest line that is a command, and one of a byte more. */
static void long_lines(void) {
    struct route_book book = {0};
    char line[] = "place 18446744073709551615 abcdefghijklmnop near 18446744073709551615\n";
    char longer[72];
    CHECK(strlen(line) == 70);
    memset(longer, 'a', sizeof longer);
    longer[70] = '\n', longer[71] = 0;
    CHECK(route_book_new(&book, 2, 2, 2) == ROUTE_BOOK_OK);
    answers(&book, line, "unknown\n");
    answers(&book, longer, "bad\n");
    route_book_free(&book);
}

/* What follows the last LF: it is left by `run`, and answered `bad` by `answer`. */
static void unfinished_lines(void) {
    struct route_book book = {0};
    uint8_t room[ROOM];
    size_t taken, written;
    CHECK(route_book_new(&book, 2, 2, 2) == ROUTE_BOOK_OK);
    CHECK(route_book_run(&book, bytes("place 1 a\nall"), 13, room, ROOM, &taken, &written) ==
          ROUTE_BOOK_OK);
    CHECK(taken == 10 && holds(room, written, "1\n"));
    CHECK(route_book_run(&book, bytes("all"), 3, room, 0, &taken, &written) == ROUTE_BOOK_OK);
    CHECK(taken == 0 && written == 0);
    route_book_free(&book);
    CHECK(route_book_answer(2, 2, 2, bytes("place 1 a\nall"), 13, room, ROOM, &taken, &written) ==
          ROUTE_BOOK_OK);
    CHECK(taken == 13 && holds(room, written, "1\nbad\n"));
    CHECK(route_book_answer(2, 2, 2, bytes("place 1 a\nall"), 13, room, 60, &taken, &written) ==
          ROUTE_BOOK_SHORT);
    CHECK(taken == 10 && holds(room, written, "1\n"));
}

static void answered_at_once(void) {
    uint8_t room[ROOM];
    size_t taken = 3, written = 4, length = strlen(INPUT);
    CHECK(route_book_answer(5, 4, 2, bytes(INPUT), length, room, ROOM, &taken, &written) ==
          ROUTE_BOOK_OK);
    CHECK(taken == length && holds(room, written, REPLIES));
    CHECK(route_book_answer(5, 4, 2, bytes(""), 0, room, 0, &taken, &written) == ROUTE_BOOK_OK);
    CHECK(taken == 0 && written == 0);
    CHECK(route_book_answer(5, 4, 2, bytes(INPUT), length, room, 60, &taken, &written) ==
          ROUTE_BOOK_SHORT);
    CHECK(taken == 13 && holds(room, written, "1\n"));
    taken = 3, written = 4;
    CHECK(route_book_answer(4294967295u, 4, 2, bytes(INPUT), length, room, ROOM, &taken,
                            &written) == ROUTE_BOOK_TOO_LARGE);
    CHECK(taken == 3 && written == 4);
}

/* A store made, and an input answered, with the n-th request refused. */
static void refused_memory(void) {
    bool was_refused = true;
    unsigned made = 0, answered = 0;
    for (unsigned n = 1; was_refused; n++) {
        struct route_book book = {0};
        uint8_t room[ROOM];
        size_t taken = 3, written = 4;
        refused_request = n;
        was_refused = route_book_new(&book, 5, 4, 2) == ROUTE_BOOK_NO_MEMORY;
        if (was_refused) {
            made++;
            CHECK(book.at == NULL && !book.is_made);
            CHECK(route_book_new(&book, 5, 4, 2) == ROUTE_BOOK_OK);
        }
        /* A made store asks for none. */
        refused_request = 1;
        answers(&book, INPUT, REPLIES);
        CHECK(route_book_pack(&book) == ROUTE_BOOK_OK && refused_request == 1);
        route_book_free(&book);
        refused_request = n;
        uint8_t status = route_book_answer(5, 4, 2, bytes(INPUT), strlen(INPUT), room, ROOM, &taken,
                                           &written);
        if (status == ROUTE_BOOK_NO_MEMORY) {
            answered++;
            CHECK(taken == 3 && written == 4);
        } else {
            CHECK(status == ROUTE_BOOK_OK && holds(room, written, REPLIES));
        }
    }
    refused_request = 0;
    CHECK(made > 5 && made == answered + 1);
}

int main(void) {
    without_a_book();
    made_and_refused();
    lines();
    pieces();
    rooms();
    lists();
    long_lines();
    unfinished_lines();
    answered_at_once();
    refused_memory();
    puts("route_book: all as it should be");
    return 0;
}
