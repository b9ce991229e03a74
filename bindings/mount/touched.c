/* The paths that a step has touched, as the control file reports them. */
#include "mount.h"

#include "commands.h"
#include "touched.h"

#include <nuzolged_touched.h>

/* ---- texts */

/* Writes a text about a step to a buffer, as nuz_manifest does. */
typedef uint32_t tell_touched(uint64_t txn, const struct asked *asked, char *buffer, size_t room,
                              nuz_answer *answer);

static uint32_t tell_manifest(uint64_t txn, const struct asked *asked, char *buffer, size_t room,
                              nuz_answer *answer) {
    (void)asked;
    return nuz_manifest(served.tree, txn, buffer, room, answer);
}

static uint32_t tell_depfile(uint64_t txn, const struct asked *asked, char *buffer, size_t room,
                             nuz_answer *answer) {
    return nuz_depfile(served.tree, txn, asked->target, asked->top, buffer, room, answer);
}

static uint32_t tell(uint64_t txn, const struct asked *asked, tell_touched *write,
                     struct touched *touched) {
    nuz_answer answer = { 0 };
    size_t room = 4096;
    touched->text = allocate(room);
    uint32_t code = write(txn, asked, touched->text, room, &answer);
    while (code == 0 && answer.size > room) {
        room = (size_t)answer.size;
        free(touched->text);
        touched->text = allocate(room);
        code = write(txn, asked, touched->text, room, &answer);
    }
    touched->size = code == 0 ? (size_t)answer.size : 0;
    return code;
}

uint32_t touched_manifest(uint64_t txn, struct touched *touched) {
    return tell(txn, NULL, tell_manifest, touched);
}

/* ---- names without a form */

/* Whether a depfile can't have a name. Only a name that is read may have %. */
static bool has_no_form(char *name, bool is_target) {
    nuz_answer answer;
    for (char *at = name; !is_target && *at != '\0'; at++) {
        *at = *at == '%' ? '_' : *at;
    }
    return nuz_depfile(served.tree, 0, name, NULL, NULL, 0, &answer) == NUZ_BAD;
}

/* The wanted thing: a name without a form, of those that a depfile must have. */
struct search {
    const struct asked *asked;
    char *found;
};

static uint32_t look_at(void *context, const nuz_touch *touch) {
    struct search *search = context;
    bool is_written = touch->how & NUZ_TOUCHED_WRITTEN && touch->kind != NUZ_DIR;
    bool is_read = touch->how & (NUZ_TOUCHED_READ | NUZ_TOUCHED_LISTED);
    if (touch->kind == 0 || (is_written ? search->asked->target != NULL : !is_read)) {
        return 0;
    }
    const char *top = search->asked->top == NULL ? "" : search->asked->top;
    char *name = joined(top, touch->path, "");
    if (has_no_form(name, is_written)) {
        search->found = joined(top, touch->path, "");
    }
    free(name);
    return search->found != NULL;
}

/* Says which name there is no form for. */
static void say_name(uint64_t txn, const struct asked *asked, struct touched *touched) {
    struct search search = { asked, NULL };
    nuz_answer answer;
    nuz_touched(served.tree, txn, look_at, &search, &answer);
    free(touched->text);
    touched->text = joined("make and Ninja have no form for the name ",
                           search.found == NULL ? asked->target : search.found, "");
    touched->size = strlen(touched->text);
    free(search.found);
}

uint32_t touched_depfile(uint64_t txn, const struct asked *asked, struct touched *touched) {
    uint32_t code = tell(txn, asked, tell_depfile, touched);
    if (code == NUZ_BAD) {
        say_name(txn, asked, touched);
    }
    return code;
}
