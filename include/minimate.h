/* minimate: forced mates in Los Alamos chess and Gardner minichess.

   Link with libminimate.a, which `tools/build_c` builds, or with libminimate.so (`tools/build_c --shared`). docs/reference/c.md has two
   complete programs, docs/reference/games.md the rules, docs/reference/formats.md the texts of positions, moves, trees and certificates,
   and docs/reference/cli.md the texts of answers and refusals.

   The first eight calls write a text into a buffer of the caller, `room`, and return its length. Seven of them write exactly the bytes
   that the program `minimate` prints for the same command, refusals included: one or more lines, each ended by a line feed, with no zero
   byte at the end. If the buffer is too small, the result is SIZE_MAX and no byte is written: call again with a larger buffer. A search is
   made again then; the calls of a solver, below, need no second search.

   Conditions. The calls are proved for callers that keep these conditions. The library does not check them, and violating one, for
   example by passing a null pointer, is undefined behaviour.

   - `fen`, `tree`, `certificate`, `move` and `room` are not null, even if their length is 0. Bytes need no alignment.
   - The `fen_length` bytes at `fen` can be read, and nothing writes them during the call; likewise for `tree`, `certificate` and `move`.
   - The `room_length` bytes at `room` can be written and are initialized (clear the buffer once). Nothing else reads or writes them
     during the call, and they overlap no text. So two calls never use one buffer at the same time.
   - A length is at most PTRDIFF_MAX.
   - `stale` is 0 or 1, as C's `bool` always is.
   - `malloc`, `realloc` and `free` belong together, and align a block to every power of two up to 16 that divides its size. Each of the
     first eight calls releases all its memory before it returns. If memory runs out, its text is `refused: NoMemory`.
   - No call is made from a signal handler, or in the forked child of a process with threads.
   - The calling thread has 1 MiB of stack left.

   Texts need no condition: a text that is not UTF-8, has a zero byte, or is no position, tree, move or certificate is refused.

   Threads. A call starts no thread and takes no lock: a search uses the calling thread. Calls share nothing except a solver and its stop
   handle, so any number of threads may be in calls at the same time. The first eight calls can't be stopped.

   - A `struct minimate_solver` and a `struct minimate_stop` are all zero before they are opened, and afterwards as the last call left
     them. They may be moved, and used by another thread, but not copied and used twice. Each is in one call at a time. Between calls of
     two threads there is a lock, the start or end of a thread, or a sequentially consistent atomic. The two may be in calls at the same
     time. Close an open one exactly once. Use none of them in a signal handler. */
#ifndef MINIMATE_H
#define MINIMATE_H

#include <stdbool.h>
#include <stddef.h>
#include <stdint.h>

/* The version of this header: its parts, one number for comparisons, and its text as `minimate --version` prints it. */
#define MINIMATE_VERSION_MAJOR 0
#define MINIMATE_VERSION_MINOR 1
#define MINIMATE_VERSION_PATCH 0
#define MINIMATE_VERSION_NUMBER (MINIMATE_VERSION_MAJOR * 10000 + MINIMATE_VERSION_MINOR * 100 + MINIMATE_VERSION_PATCH)
#define MINIMATE_VERSION "0.1.0"

#ifdef __cplusplus
extern "C" {
#endif

/* Writes what `minimate solve` prints: the fewest plies up to `limit` (1 to 63) in which the side to move forces mate, or with `stale`
   mate or stalemate, and the least first move; or that there is none. The table has `slots` slots (1 to 1,048,576). It takes 65 bytes a
   slot while it is made, and 32 bytes a slot after that. A prime such as 1048573 is best for long searches. */
size_t minimate_solve(const uint8_t *fen, size_t fen_length, bool stale, uint32_t limit, uint32_t slots, uint8_t *room,
                      size_t room_length);

/* Writes what `minimate keys` prints: each first move that forces the goal within the limit, with the fewest plies that it takes; or that
   there is none. */
size_t minimate_keys(const uint8_t *fen, size_t fen_length, bool stale, uint32_t limit, uint32_t slots, uint8_t *room,
                     size_t room_length);

/* Writes what `minimate tree` prints: the tree of the answer, or that there is none. */
size_t minimate_tree(const uint8_t *fen, size_t fen_length, bool stale, uint32_t limit, uint32_t slots, uint8_t *room,
                     size_t room_length);

/* Writes what `minimate check` prints for the tree: the plies in which it wins, or that it doesn't. One line feed at its end is ignored. */
size_t minimate_check(const uint8_t *fen, size_t fen_length, bool stale, const uint8_t *tree, size_t tree_length, uint8_t *room,
                      size_t room_length);

/* Writes what `minimate verify` prints for the certificate: the answer that it proves, or the line at which it proves none. `stale` is the
   goal of the certificate. */
size_t minimate_verify(const uint8_t *fen, size_t fen_length, bool stale, const uint8_t *certificate, size_t certificate_length,
                       uint8_t *room, size_t room_length);

/* Writes what `minimate moves` prints: the lawful moves, each on a line. */
size_t minimate_moves(const uint8_t *fen, size_t fen_length, uint8_t *room, size_t room_length);

/* Writes what `minimate after` prints: the position after a move, on a line. The move is written as `minimate moves` prints it; any other
   text is `refused: Move`. */
size_t minimate_after(const uint8_t *fen, size_t fen_length, const uint8_t *move, size_t move_length, uint8_t *room, size_t room_length);

/* Writes why a position is refused: the line `refused: ..`, and after it the sentence that the program prints on standard error. Writes
   nothing, and returns 0, if the position is sound. */
size_t minimate_fault(const uint8_t *fen, size_t fen_length, uint8_t *room, size_t room_length);

/* Returns the version of the library, in the form of MINIMATE_VERSION_NUMBER. */
uint32_t minimate_version(void);

/* The results of the calls below. */
enum {
    MINIMATE_FORCED = 0,      /* the goal is forced; for calls without a goal: success */
    MINIMATE_NONE_WITHIN = 1, /* the goal is not forced within the limit */
    MINIMATE_REFUSED = 2,     /* the position is refused: minimate_fault says why */
    MINIMATE_LIMIT = 3,       /* the limit is outside 1 to 63 */
    MINIMATE_STOPPED = 4,     /* the search was stopped */
    MINIMATE_NO_SOLVER = 5,   /* the solver or the stop handle isn't open */
    MINIMATE_SLOTS = 6,       /* the slots are outside 1 to 1,048,576 */
    MINIMATE_NO_MEMORY = 7,   /* memory ran out */
    MINIMATE_ANOTHER = 8,     /* the solver or the stop handle is open already */
    MINIMATE_ROOM = 9         /* the buffer is too small for the text */
};

/* A solver, which keeps its table from search to search. Its members belong to the library. */
struct minimate_solver {
    bool full;
    void *held, *spare;
};

/* The handle that stops its searches from another thread. Its members belong to the library. */
struct minimate_stop {
    bool full;
    void *held, *spare;
};

/* A move: the files and ranks of its two squares, from 0, and `q`, `r`, `b` or `n` for a promotion, or 0. */
struct minimate_first {
    uint8_t from_file, from_rank, to_file, to_rank, promotion;
};

/* The fewest plies in which the goal is forced, and the least first move. */
struct minimate_answer {
    uint32_t plies;
    struct minimate_first first;
};

/* The progress of a search: the goal is not forced within `none_within` plies, and `tried` of `moves` first moves of the round under way
   are decided. While keys are searched `none_within` is 0. While a tree is built the numbers are those of one of its positions. */
struct minimate_place {
    uint32_t none_within, tried, moves;
};

/* Opens a solver with a table of `slots` slots, and the handle that stops it. Both hold memory until they are closed, in any order. */
uint32_t minimate_solver_open(struct minimate_solver *solver, struct minimate_stop *stop, uint32_t slots);

/* Solves, and writes the answer in numbers. `*answer` is written if the result is MINIMATE_FORCED, and stays as it was otherwise. The
   solver can be used again after every result. */
uint32_t minimate_solver_solve(struct minimate_solver *solver, const uint8_t *fen, size_t fen_length, bool stale, uint32_t limit,
                               struct minimate_answer *answer);

/* Writes the text that `minimate keys` prints into the buffer, and its length into `*length`. The result is MINIMATE_FORCED, or
   MINIMATE_NONE_WITHIN if there is no key. If the buffer is too small, the result is MINIMATE_ROOM and only the length is written: call
   again with that much room; the table has the results, so this takes no second search. If there is no text, the length is 0. `length` is
   not null, and overlaps nothing. */
uint32_t minimate_solver_keys(struct minimate_solver *solver, const uint8_t *fen, size_t fen_length, bool stale, uint32_t limit, uint8_t *room,
                              size_t room_length, size_t *length);

/* Writes the text that `minimate tree` prints, in the same way. */
uint32_t minimate_solver_tree(struct minimate_solver *solver, const uint8_t *fen, size_t fen_length, bool stale, uint32_t limit, uint8_t *room,
                              size_t room_length, size_t *length);

/* Closes the solver. Does nothing if it isn't open. */
void minimate_solver_close(struct minimate_solver *solver);

/* Stops the search under way and every later one, or, with `set` false, allows searches again. A stopped search returns
   MINIMATE_STOPPED, unless it has its answer at once. May be called while the solver searches in another thread. */
uint32_t minimate_stop_set(struct minimate_stop *stop, bool set);

/* Writes the progress of the search under way, or of the last one. May be called while the solver searches in another thread. */
uint32_t minimate_stop_place(struct minimate_stop *stop, struct minimate_place *place);

/* Closes the stop handle. The solver continues as the last `minimate_stop_set` left it. Does nothing if the handle isn't open. */
void minimate_stop_close(struct minimate_stop *stop);

#ifdef __cplusplus
}
#endif

#endif
