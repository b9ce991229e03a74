/* rounds: how much time of the processor the rounds of compare.py take in C.
 *
 *     rounds WAY COUNT [FOLDER]
 *
 * WAY is library, system (in FOLDER, which is empty), lmdb (so too) or sqlite (in memory): the last
 * two if it was compiled with WITH_LMDB or WITH_SQLITE, as databases of paths and bytes. All
 * rounds of a way are one transaction. The output is the time in seconds.
 */
#define _DEFAULT_SOURCE /* for getrusage */

#include <nuzolged.h>

#include <dirent.h>
#include <fcntl.h>
#include <stdio.h>
#include <stdlib.h>
#include <sys/resource.h>
#include <sys/stat.h>
#include <unistd.h>

#undef NDEBUG
#include <assert.h>

enum { SIZE = 100, ROOM = 4096 };

static char data[SIZE], room[ROOM];

/* The names of a round. */
static char folder[64], file[80], name[80];

static void name_round(const char *top, unsigned number) {
    snprintf(folder, sizeof folder, "%s/%u", top, number);
    snprintf(file, sizeof file, "%s/file", folder);
    snprintf(name, sizeof name, "%s/name", folder);
}

/* ---- the library */

static nuz_tree *tree;
static uint64_t txn;

static void open_library(const char *at) {
    nuz_answer answer;
    assert(at != NULL && nuz_tree_open(&tree, 0) == 0 && nuz_begin(tree, &answer) == 0);
    txn = answer.number;
}

static void round_of_library(unsigned number) {
    nuz_answer answer;
    const uint32_t new_file = NUZ_O_WRONLY | NUZ_O_CREAT | NUZ_O_EXCL;
    name_round("", number);
    assert(nuz_mkdir(tree, txn, NUZ_S(folder), NUZ_DEFAULT_MODE, &answer) == 0);
    assert(nuz_open(tree, txn, NUZ_S(file), new_file, NUZ_DEFAULT_MODE, &answer) == 0);
    uint64_t fd = answer.number;
    assert(nuz_write(tree, txn, fd, data, SIZE, &answer) == 0);
    assert(nuz_close(tree, txn, fd, &answer) == 0);
    assert(nuz_stat(tree, txn, NUZ_S(file), &answer) == 0 && answer.size == SIZE);
    assert(nuz_open(tree, txn, NUZ_S(file), NUZ_O_RDONLY, NUZ_DEFAULT_MODE, &answer) == 0);
    fd = answer.number;
    assert(nuz_read(tree, txn, fd, room, ROOM, &answer) == 0 && answer.number == SIZE);
    assert(nuz_close(tree, txn, fd, &answer) == 0);
    assert(nuz_rename(tree, txn, NUZ_S(file), NUZ_S(name), &answer) == 0);
    assert(nuz_list_all(tree, txn, NUZ_S(folder), room, ROOM, &answer) == 0);
    assert(answer.number == 1);
}

static void close_library(void) {
    nuz_answer answer;
    assert(nuz_commit(tree, txn, &answer) == 0);
}

/* ---- the system */

static const char *top;

static void open_system(const char *at) {
    top = at;
}

static unsigned names_in(const char *path) {
    DIR *listed = opendir(path);
    unsigned count = 0;
    for (const struct dirent *entry; (entry = readdir(listed)) != NULL;) {
        count += entry->d_name[0] != '.';
    }
    closedir(listed);
    return count;
}

static void round_of_system(unsigned number) {
    struct stat told;
    name_round(top, number);
    assert(mkdir(folder, 0777) == 0);
    int fd = open(file, O_WRONLY | O_CREAT | O_EXCL, 0666);
    assert(write(fd, data, SIZE) == SIZE && close(fd) == 0);
    assert(stat(file, &told) == 0 && told.st_size == SIZE);
    fd = open(file, O_RDONLY);
    assert(read(fd, room, ROOM) == SIZE && close(fd) == 0);
    assert(rename(file, name) == 0 && names_in(folder) == 1);
}

static void close_system(void) {}

/* ---- LMDB: a path is a key, and a list goes through the keys that begin with one */

#ifdef WITH_LMDB
#include <lmdb.h>

static MDB_env *environment;
static MDB_txn *change;
static MDB_dbi database;

static void open_lmdb(const char *at) {
    assert(mdb_env_create(&environment) == 0);
    assert(mdb_env_set_mapsize(environment, (size_t)1 << 30) == 0);
    assert(mdb_env_open(environment, at, MDB_NOSYNC, 0600) == 0);
    assert(mdb_txn_begin(environment, NULL, 0, &change) == 0);
    assert(mdb_dbi_open(change, NULL, 0, &database) == 0);
}

static void put(const char *path, size_t size, unsigned flags) {
    MDB_val key = { strlen(path), (char *)path }, value = { size, data };
    assert(mdb_put(change, database, &key, &value, flags) == 0);
}

static size_t get(const char *path) {
    MDB_val key = { strlen(path), (char *)path }, value;
    assert(mdb_get(change, database, &key, &value) == 0);
    memcpy(room, value.mv_data, value.mv_size);
    return value.mv_size;
}

static unsigned keys_below(const char *path) {
    char front[80];
    MDB_cursor *cursor;
    MDB_val key = { (size_t)snprintf(front, sizeof front, "%s/", path), front }, value;
    size_t len = key.mv_size;
    unsigned count = 0;
    assert(mdb_cursor_open(change, database, &cursor) == 0);
    int code = mdb_cursor_get(cursor, &key, &value, MDB_SET_RANGE);
    while (code == 0 && key.mv_size > len && memcmp(key.mv_data, front, len) == 0) {
        count++;
        code = mdb_cursor_get(cursor, &key, &value, MDB_NEXT);
    }
    mdb_cursor_close(cursor);
    return count;
}

static void round_of_lmdb(unsigned number) {
    name_round("", number);
    put(folder, 0, MDB_NOOVERWRITE);
    put(file, 0, MDB_NOOVERWRITE);
    put(file, SIZE, 0);
    assert(get(file) == SIZE);
    assert(get(file) == SIZE);
    put(name, get(file), 0);
    MDB_val key = { strlen(file), file };
    assert(mdb_del(change, database, &key, NULL) == 0);
    assert(keys_below(folder) == 1);
}

static void close_lmdb(void) {
    assert(mdb_txn_commit(change) == 0);
}
#endif

/* ---- SQLite: so too */

#ifdef WITH_SQLITE
#include <sqlite3.h>

static sqlite3 *base;

enum { MAKE, WRITE, READ, RENAME, LIST, STATEMENTS };

static sqlite3_stmt *statements[STATEMENTS];

static void open_sqlite(const char *at) {
    static const char *const texts[] = {
        "INSERT INTO file VALUES (?1, ?2)",
        "UPDATE file SET data = ?2 WHERE path = ?1",
        "SELECT data FROM file WHERE path = ?1",
        "UPDATE file SET path = ?2 WHERE path = ?1",
        "SELECT path FROM file WHERE path > ?1 AND path < ?2",
    };
    assert(at != NULL && sqlite3_open(":memory:", &base) == SQLITE_OK);
    assert(sqlite3_exec(base, "CREATE TABLE file (path TEXT PRIMARY KEY, data BLOB) WITHOUT ROWID;"
                        "BEGIN", NULL, NULL, NULL) == SQLITE_OK);
    for (int i = 0; i < STATEMENTS; i++) {
        assert(sqlite3_prepare_v2(base, texts[i], -1, &statements[i], NULL) == SQLITE_OK);
    }
}

/* Runs a statement on two texts, the second of so many bytes: how many rows there are. */
static unsigned run(int which, const char *first, const char *second, int size) {
    sqlite3_stmt *statement = statements[which];
    unsigned count = 0;
    sqlite3_bind_text(statement, 1, first, -1, SQLITE_STATIC);
    if (sqlite3_bind_parameter_count(statement) > 1) {
        sqlite3_bind_text(statement, 2, second, size, SQLITE_STATIC);
    }
    while (sqlite3_step(statement) == SQLITE_ROW) {
        int bytes = sqlite3_column_bytes(statement, 0);
        memcpy(room, sqlite3_column_blob(statement, 0), (size_t)bytes);
        count++;
    }
    assert(sqlite3_reset(statement) == SQLITE_OK);
    return count;
}

static void round_of_sqlite(unsigned number) {
    char from[80], to[80];
    name_round("", number);
    snprintf(from, sizeof from, "%s/", folder);
    snprintf(to, sizeof to, "%s0", folder); /* (0 follows on /) */
    run(MAKE, folder, "", 0);
    run(MAKE, file, "", 0);
    run(WRITE, file, data, SIZE);
    assert(run(READ, file, NULL, 0) == 1);
    assert(run(READ, file, NULL, 0) == 1);
    run(RENAME, file, name, -1);
    assert(run(LIST, from, to, -1) == 1);
}

static void close_sqlite(void) {
    assert(sqlite3_exec(base, "COMMIT", NULL, NULL, NULL) == SQLITE_OK);
}
#endif

static const struct {
    const char *name;
    void (*open)(const char *at);
    void (*round)(unsigned number);
    void (*close)(void);
} WAYS[] = {
#define WAY(name) { #name, open_##name, round_of_##name, close_##name }
    WAY(library),
    WAY(system),
#ifdef WITH_LMDB
    WAY(lmdb),
#endif
#ifdef WITH_SQLITE
    WAY(sqlite),
#endif
};

static double used(void) {
    struct rusage told;
    getrusage(RUSAGE_SELF, &told);
    return (double)(told.ru_utime.tv_sec + told.ru_stime.tv_sec)
         + (double)(told.ru_utime.tv_usec + told.ru_stime.tv_usec) / 1e6;
}

int main(int argc, char **argv) {
    unsigned count = argc > 2 ? (unsigned)strtoul(argv[2], NULL, 10) : 0;
    memset(data, 'x', SIZE);
    for (size_t way = 0; argc > 2 && way < sizeof WAYS / sizeof *WAYS; way++) {
        if (strcmp(argv[1], WAYS[way].name) == 0) {
            double begun = used();
            WAYS[way].open(argc > 3 ? argv[3] : "");
            for (unsigned number = 0; number < count; number++) {
                WAYS[way].round(number);
            }
            WAYS[way].close();
            printf("%.6f\n", used() - begun);
            return EXIT_SUCCESS;
        }
    }
    return 2;
}
