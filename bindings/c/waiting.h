/* waiting.h: threads whose calls wait, in tests of a shared tree. */
#ifndef NUZOLGED_WAITING_H
#define NUZOLGED_WAITING_H

#include <nuzolged_shared.h>

#include <time.h>

/* Longer than any of these waits, in milliseconds, so that none is for ever. */
enum { LONG = 20000 };

static void sleep_for(long milliseconds) {
    struct timespec time = { 0, milliseconds * 1000000 };
    nanosleep(&time, NULL);
}

/* Sleeps until a transaction, whose call another thread makes, waits for it: whether it does. */
static bool comes_to_wait(nuz_shared *shared, uint64_t txn) {
    nuz_answer told = { .code = NUZ_NO_ASK };
    for (int i = 0; told.code == NUZ_NO_ASK && i < LONG; i++) {
        sleep_for(1);
        nuz_blockers(nuz_shared_lock(shared), txn, NULL, 0, &told);
        nuz_shared_unlock(shared);
    }
    return told.code == 0;
}

#endif
