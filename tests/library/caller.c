/* Makes calls of the library, and writes their replies.

       caller CALL STALE LIMIT SLOTS ROOM FEN         one of the calls that answer in text, in a room of ROOM bytes
       caller solver CALL SLOTS STALE LIMIT FEN ..    asks one solver about each position, by solve, keys or tree
       caller stop CALL SLOTS LIMIT LONG FEN          stops a search of LONG from another thread, writes its progress, and asks about FEN
       caller threads SLOTS LIMIT FEN                 eight threads with a solver each

   The tree of `check`, the certificate of `verify` or the move of `after` is read from standard input. A room lies between bytes that no call
   may change. The status is 0 if all went as it should, 3 if the room was too small, 4 if a byte was written outside the reply, 5 if the
   program itself has no memory or can't write, and 6 if the library is of another version than the header. */
#include <pthread.h>
#include <stdio.h>
#include <stdlib.h>
#include <string.h>
#include <time.h>

#include "minimate.h"

enum { THREADS = 8, MILLION = 1000000, EDGE = 64, MARK = 0xA5, MOST_TREE = 1 << 21 };

/* The calls that answer in text. */
static size_t call(const char *word, bool stale, uint32_t limit, uint32_t slots, const char *fen, uint8_t *room, size_t length) {
    const uint8_t *text = (const uint8_t *)fen;
    size_t count = strlen(fen);
    if (strcmp(word, "solve") == 0)
        return minimate_solve(text, count, stale, limit, slots, room, length);
    if (strcmp(word, "keys") == 0)
        return minimate_keys(text, count, stale, limit, slots, room, length);
    if (strcmp(word, "tree") == 0)
        return minimate_tree(text, count, stale, limit, slots, room, length);
    if (strcmp(word, "moves") == 0)
        return minimate_moves(text, count, room, length);
    if (strcmp(word, "fault") == 0)
        return minimate_fault(text, count, room, length);
    uint8_t *tree = malloc(MOST_TREE);
    if (!tree)
        exit(5);
    size_t read = fread(tree, 1, MOST_TREE, stdin);
    size_t result;
    if (strcmp(word, "after") == 0)
        result = minimate_after(text, count, tree, read, room, length);
    else if (strcmp(word, "verify") == 0)
        result = minimate_verify(text, count, stale, tree, read, room, length);
    else
        result = minimate_check(text, count, stale, tree, read, room, length);
    free(tree);
    return result;
}

static int one_call(char **words) {
    size_t length = strtoull(words[5], NULL, 10);
    uint8_t *block = malloc(length + 2 * EDGE), *room = block + EDGE;
    if (!block)
        return 5;
    memset(block, MARK, length + 2 * EDGE);
    uint32_t limit = strtoul(words[3], NULL, 10), slots = strtoul(words[4], NULL, 10);
    size_t result = call(words[1], words[2][0] == '1', limit, slots, words[6], room, length);
    size_t written = result == SIZE_MAX ? 0 : result;
    if (written > length)
        return 4;
    for (size_t i = 0; i < length + 2 * EDGE; i++)
        if ((i < EDGE || i >= EDGE + written) && block[i] != MARK)
            return 4;
    if (result == SIZE_MAX)
        return 3;
    return fwrite(room, 1, written, stdout) == written && fflush(stdout) == 0 ? 0 : 5;
}

/* A solver, as a program uses it. */
static const char *why(uint32_t result) {
    switch (result) {
    case MINIMATE_STOPPED: return "stopped";
    case MINIMATE_LIMIT: return "refused: Limit";
    case MINIMATE_REFUSED: return "refused";
    case MINIMATE_NO_MEMORY: return "refused: NoMemory";
    default: return "wrong";
    }
}

static uint32_t ask_solve(struct minimate_solver *solver, const char *fen, bool stale, uint32_t limit) {
    struct minimate_answer answer = {MARK, {0}};
    const struct minimate_first *m = &answer.first;
    uint32_t result = minimate_solver_solve(solver, (const uint8_t *)fen, strlen(fen), stale, limit, &answer);
    if (result == MINIMATE_FORCED)
        printf("%s %u %c%c%c%c%.1s\n", stale ? "goal" : "mate", (unsigned)answer.plies, 'a' + m->from_file, '1' + m->from_rank, 'a' + m->to_file,
               '1' + m->to_rank, (const char *)&m->promotion);
    else if (result == MINIMATE_NONE_WITHIN)
        printf("none within %u\n", answer.plies == MARK ? (unsigned)limit : 0);
    else
        printf("%s\n", answer.plies == MARK ? why(result) : "wrong");
    return result;
}

/* Keys or a tree: in no room, in exactly its room, and in a byte less. Outside its reply no byte of the room may change. */
static uint32_t ask_text(struct minimate_solver *solver, const char *word, const char *fen, bool stale, uint32_t limit) {
    uint32_t (*call)(struct minimate_solver *, const uint8_t *, size_t, bool, uint32_t, uint8_t *, size_t, size_t *) =
        word[0] == 'k' ? minimate_solver_keys : minimate_solver_tree;
    uint8_t none = 0;
    size_t length = 1, again = 1;
    uint32_t result = call(solver, (const uint8_t *)fen, strlen(fen), stale, limit, &none, 0, &length);
    if (result != MINIMATE_ROOM) {
        printf("%s\n", length == 0 ? why(result) : "wrong length");
        return result;
    }
    uint8_t *room = malloc(length + 2 * EDGE);
    if (!room) {
        printf("refused: NoMemory\n");
        return MINIMATE_NO_MEMORY;
    }
    memset(room, MARK, length + 2 * EDGE);
    result = call(solver, (const uint8_t *)fen, strlen(fen), stale, limit, room + EDGE, length - 1, &again);
    bool whole = result == MINIMATE_NO_MEMORY || (result == MINIMATE_ROOM && again == length);
    for (size_t i = 0; i < length + 2 * EDGE; i++)
        whole = whole && room[i] == MARK;
    result = call(solver, (const uint8_t *)fen, strlen(fen), stale, limit, room + EDGE, length, &again);
    for (size_t i = 0; i < EDGE; i++)
        whole = whole && room[i] == MARK && room[length + EDGE + i] == MARK;
    if (!whole)
        printf("wrong bytes\n");
    else if (result != MINIMATE_FORCED && result != MINIMATE_NONE_WITHIN)
        printf("%s\n", why(result));
    else if (again != length || (result == MINIMATE_NONE_WITHIN) != (memcmp(room + EDGE, "none", 4) == 0))
        printf("wrong length\n");
    else
        printf("%.*s", (int)length, (const char *)room + EDGE);
    free(room);
    return result;
}

static uint32_t ask(struct minimate_solver *solver, const char *word, const char *fen, bool stale, uint32_t limit) {
    return word[0] == 's' ? ask_solve(solver, fen, stale, limit) : ask_text(solver, word, fen, stale, limit);
}

struct search {
    struct minimate_solver solver;
    const char *word, *fen;
    uint32_t limit, result;
    struct timespec ended;
};

static void *search(void *given) {
    struct search *it = given;
    struct minimate_answer answer = {0};
    uint8_t room[256] = {0};
    size_t length;
    const uint8_t *fen = (const uint8_t *)it->fen;
    size_t size = strlen(it->fen);
    if (it->word[0] == 's')
        it->result = minimate_solver_solve(&it->solver, fen, size, false, it->limit, &answer);
    else if (it->word[0] == 'k')
        it->result = minimate_solver_keys(&it->solver, fen, size, false, it->limit, room, sizeof room, &length);
    else
        it->result = minimate_solver_tree(&it->solver, fen, size, false, it->limit, room, sizeof room, &length);
    clock_gettime(CLOCK_MONOTONIC, &it->ended);
    return NULL;
}

static int stop_one(const char *word, uint32_t slots, uint32_t limit, const char *long_one, const char *fen) {
    struct minimate_stop stop = {0};
    struct search it = {{0}, word, long_one, 63, 0, {0, 0}};
    struct minimate_place place = {0};
    struct timespec told, while_searching = {0, 500 * MILLION};
    pthread_t thread;
    if (minimate_solver_open(&it.solver, &stop, slots) || minimate_solver_open(&it.solver, &stop, slots) != MINIMATE_ANOTHER)
        return 1;
    if (pthread_create(&thread, NULL, search, &it))
        return 1;
    nanosleep(&while_searching, NULL);
    if (minimate_stop_place(&stop, &place))
        return 1;
    clock_gettime(CLOCK_MONOTONIC, &told);
    if (minimate_stop_set(&stop, true))
        return 1;
    pthread_join(thread, NULL);
    double waited = (it.ended.tv_sec - told.tv_sec) * 1e3 + (it.ended.tv_nsec - told.tv_nsec) / 1e6;
    printf("%s after %.3f ms, none within %u, %u of %u moves\n", it.result == MINIMATE_STOPPED ? "stopped" : "not stopped", waited,
           (unsigned)place.none_within, (unsigned)place.tried, (unsigned)place.moves);
    if (minimate_stop_set(&stop, false))
        return 1;
    ask(&it.solver, word, fen, false, limit);
    minimate_solver_close(&it.solver);
    minimate_stop_close(&stop);
    struct minimate_answer answer = {0};
    uint8_t room = 7;
    size_t length = 1;
    bool none = minimate_solver_solve(&it.solver, (const uint8_t *)fen, strlen(fen), false, 1, &answer) == MINIMATE_NO_SOLVER;
    none = none && minimate_solver_keys(&it.solver, (const uint8_t *)fen, strlen(fen), false, 1, &room, 1, &length) == MINIMATE_NO_SOLVER;
    none = none && length == 0 && room == 7 && minimate_stop_place(&stop, &place) == MINIMATE_NO_SOLVER;
    return none && minimate_stop_set(&stop, true) == MINIMATE_NO_SOLVER ? 0 : 1;
}

static int all_threads(uint32_t slots, uint32_t limit, const char *fen) {
    struct minimate_stop stops[THREADS] = {{0}};
    struct search them[THREADS];
    pthread_t threads[THREADS];
    for (int i = 0; i < THREADS; i++) {
        them[i] = (struct search){{0}, "solve", fen, limit, 9, {0, 0}};
        if (minimate_solver_open(&them[i].solver, &stops[i], slots) || pthread_create(&threads[i], NULL, search, &them[i]))
            return 1;
    }
    int wrong = 0;
    for (int i = 0; i < THREADS; i++) {
        pthread_join(threads[i], NULL);
        wrong += them[i].result != MINIMATE_FORCED;
        minimate_solver_close(&them[i].solver);
        minimate_stop_close(&stops[i]);
    }
    printf("%d of %d found it\n", THREADS - wrong, THREADS);
    return wrong;
}

static int ask_all(int count, char **words) {
    struct minimate_solver solver = {0};
    struct minimate_stop stop = {0};
    uint32_t opened = minimate_solver_open(&solver, &stop, strtoul(words[1], NULL, 10));
    if (opened) {
        printf("%s\n", opened == MINIMATE_NO_MEMORY ? "refused: NoMemory" : opened == MINIMATE_SLOTS ? "refused: Slots" : "wrong");
        return 0;
    }
    for (int i = 4; i < count; i++)
        ask(&solver, words[0], words[i], words[2][0] == '1', strtoul(words[3], NULL, 10));
    minimate_stop_close(&stop);
    minimate_solver_close(&solver);
    return fflush(stdout) == 0 ? 0 : 5;
}

int main(int count, char **words) {
    if (minimate_version() != MINIMATE_VERSION_NUMBER)
        return 6;
    if (count > 6 && strcmp(words[1], "solver") == 0)
        return ask_all(count - 2, words + 2);
    if (count == 7 && strcmp(words[1], "stop") == 0)
        return stop_one(words[2], strtoul(words[3], NULL, 10), strtoul(words[4], NULL, 10), words[5], words[6]);
    if (count == 5 && strcmp(words[1], "threads") == 0)
        return all_threads(strtoul(words[2], NULL, 10), strtoul(words[3], NULL, 10), words[4]);
    return count == 7 ? one_call(words) : 5;
}
