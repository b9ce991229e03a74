/* The deadlock of one transaction, as nuzolged_cycle.h says: found breadth first in the report
 * `waits`. */
#include <nuzolged_cycle.h>

#include <stdlib.h>

#include "report.h"

/* An edge: a transaction that waits, and one that it waits for. The first edge of a transaction
 * also represents the transaction itself. */
typedef struct edge {
    uint64_t from, to;
    struct edge *before; /* for whom the transaction is waited for, on a shortest way to it; */
    bool is_seen;        /* whether there is a way to it */
} edge;

typedef struct waits {
    text report;
    edge *at; /* in the order of the transactions that wait */
    size_t count, room;
} waits;

static uint32_t read_waits(waits *waits, nuz_tree *tree) {
    uint32_t code = make_report(tree, "waits", "edges ", &waits->report);
    word rest = { waits->report.at, code == 0 ? waits->report.len : 0 };
    taken(&rest, '\n'); /* (how many edges there are) */
    while (code == 0 && rest.len > 0) {
        word line = taken(&rest, '\n');
        if (!is(taken(&line, ' '), "edge")) {
            break;
        }
        edge *at = grown(waits->at, waits->count, &waits->room, sizeof *at);
        if (at == NULL) {
            return NUZ_MEMORY;
        }
        uint64_t from = number_of(taken(&line, ' '));
        waits->at = at;
        at[waits->count++] = (edge){ from, number_of(taken(&line, ' ')), NULL, false };
    }
    return code;
}

/* The first edge of a transaction, or NULL if it waits for nobody. */
static edge *first_of(const waits *waits, uint64_t txn) {
    size_t from = 0, to = waits->count;
    while (from < to) {
        size_t middle = from + (to - from) / 2;
        if (waits->at[middle].from < txn) {
            from = middle + 1;
        } else {
            to = middle;
        }
    }
    return from < waits->count && waits->at[from].from == txn ? &waits->at[from] : NULL;
}

/* Goes on from a transaction to those that it waits for and that are not seen yet. They come after
 * the others in the queue. Returns whether it waits for the one looked for. */
static bool goes_on(const waits *waits, edge *from, uint64_t txn, edge **behind, size_t *count) {
    const edge *end = waits->at + waits->count;
    for (const edge *edge = from; edge < end && edge->from == from->from; edge++) {
        struct edge *next = first_of(waits, edge->to);
        if (edge->to == txn) {
            return true;
        }
        if (next != NULL && !next->is_seen) {
            next->is_seen = true;
            next->before = from;
            behind[(*count)++] = next;
        }
    }
    return false;
}

/* The last transaction of a shortest cycle that begins with one, or NULL. There is room for as many
 * as wait. */
static const edge *last_of_cycle(const waits *waits, uint64_t txn, edge **behind) {
    edge *first = first_of(waits, txn);
    size_t count = 0;
    if (first != NULL) {
        first->is_seen = true;
        behind[count++] = first;
    }
    for (size_t i = 0; i < count; i++) {
        if (goes_on(waits, behind[i], txn, behind, &count)) {
            return behind[i];
        }
    }
    return NULL;
}

static size_t count_back(const edge *last) {
    size_t count = 0;
    for (; last != NULL; last = last->before) {
        count++;
    }
    return count;
}

/* Copies a cycle by its last transaction, as far as there is room: how many they are. */
static size_t copy_cycle(const edge *last, uint64_t *txns, size_t room) {
    size_t count = count_back(last), place = count;
    for (; last != NULL; last = last->before) {
        place--;
        if (place < room) {
            txns[place] = last->from;
        }
    }
    return count;
}

uint32_t nuz_cycle_of(nuz_tree *tree, uint64_t txn, uint64_t *txns, size_t room,
                      nuz_answer *answer) {
    uint32_t code = nuz_cycle(tree, NULL, 0, answer);
    if (code != 0 || answer->number == 0) {
        return code;
    }
    waits waits = { 0 };
    code = read_waits(&waits, tree);
    edge **behind = code == 0 ? malloc((waits.count + 1) * sizeof *behind) : NULL;
    size_t count = 0;
    if (behind != NULL) {
        count = copy_cycle(last_of_cycle(&waits, txn, behind), txns, room);
    }
    code = code == 0 && behind == NULL ? NUZ_MEMORY : code;
    free(behind);
    free(waits.at);
    free(waits.report.at);
    return answered(answer, code, count, 0);
}
