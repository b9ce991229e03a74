/* The nodes that the kernel knows: directories, files and links of each step, by their numbers in
 * the tree, and the names by which they are known. */
#include "mount.h"

#include "commands.h"

/* The kernel's number of DIR is 1, and of all else the address of its node. */
fuse_ino_t inode_of(const struct node *node) {
    return node == &served.top ? FUSE_ROOT_ID : (fuse_ino_t)(uintptr_t)node;
}

struct node *node_at(fuse_ino_t inode) {
    return inode == FUSE_ROOT_ID ? &served.top : (struct node *)(uintptr_t)inode;
}

/* The number that stat shows: another one in each step, since a file may differ from step to step,
 * and programs take two names of one number for one file. */
uint64_t shown_number(const struct node *node) {
    return node->step == NULL ? node->number : node->step->place << 40 | node->number;
}

/* The time that the kernel gives a file which is written now. So a file of a step is never older
 * than one that was written on the disk before, nor newer than one that is written there later.
 * (The kernel takes the time of a coarse clock, or of a fine one if somebody has seen the time that
 * the file had. So neither clock, if it were read here, would be in order with both.) */
struct timespec now(void) {
    struct timespec time;
    struct stat status;
    bool is_known = served.stamped >= 0 && futimens(served.stamped, NULL) == 0
                 && fstat(served.stamped, &status) == 0;
    clock_gettime(CLOCK_REALTIME_COARSE, &time);
    return is_known ? status.st_mtim : time;
}

/* ---- nodes */

struct node *node_find(const struct step *step, uint64_t number) {
    uint64_t hash = hash_of(step, &number, sizeof number);
    struct link *link = table_first(&served.nodes, hash);
    while (link != NULL) {
        struct node *node = (struct node *)link;
        if (link->hash == hash && node->step == step && node->number == number) {
            return node;
        }
        link = link->next;
    }
    return NULL;
}

struct node *node_of(struct step *step, uint64_t number) {
    struct node *node = node_find(step, number);
    if (node == NULL) {
        node = allocate(sizeof *node);
        node->step = step;
        node->number = number;
        step->nodes++;
        table_add(&served.nodes, &node->link, hash_of(step, &number, sizeof number));
    }
    return node;
}

static void name_remove(struct name *name);

/* A node of the control file: another one each time that it is looked up, since the kernel lets one
 * write at a time be made to each, and a save takes long. */
struct node *node_of_control(void) {
    struct node *node = allocate(sizeof *node);
    node->number = CONTROL_NUMBER;
    return node;
}

bool node_is_control(const struct node *node) {
    return node->step == NULL && node != &served.top;
}

/* Frees a node that the kernel does not know, and in which no name is known. */
static void node_free_if_unknown(struct node *node) {
    if (node->lookups > 0 || node->children > 0 || node == &served.top) {
        return;
    }
    if (node_is_control(node)) {
        free(node);
        return;
    }
    while (node->names != NULL) {
        name_remove(node->names);
    }
    struct step *step = node->step;
    node_closed(node);
    table_remove(&served.nodes, &node->link);
    free(node);
    step->nodes--;
    step_free_if_over(step);
}

void node_forget(struct node *node, uint64_t times) {
    node->lookups -= times < node->lookups ? times : node->lookups;
    node_free_if_unknown(node);
}

/* Puts a node among those of its step that have a descriptor. */
void node_opened(struct node *node, uint64_t fd) {
    struct step *step = node->step;
    node->fd = fd;
    node->previous_open = NULL;
    node->next_open = step->open;
    if (step->open != NULL) {
        step->open->previous_open = node;
    }
    step->open = node;
}

/* Takes it out again, if it is among them. */
void node_closed(struct node *node) {
    if (node->fd == 0) {
        return;
    }
    if (node->previous_open == NULL) {
        node->step->open = node->next_open;
    } else {
        node->previous_open->next_open = node->next_open;
    }
    if (node->next_open != NULL) {
        node->next_open->previous_open = node->previous_open;
    }
    node->fd = 0;
}

/* ---- names */

static uint64_t name_hash(const struct node *dir, const char *text) {
    return hash_of(dir, text, strlen(text));
}

static struct name *name_at(const struct node *dir, const char *text) {
    uint64_t hash = name_hash(dir, text);
    struct link *link = table_first(&served.names, hash);
    while (link != NULL) {
        struct name *name = (struct name *)link;
        if (link->hash == hash && name->dir == dir && strcmp(name->text, text) == 0) {
            return name;
        }
        link = link->next;
    }
    return NULL;
}

static void name_remove(struct name *name) {
    struct name **at = &name->node->names;
    while (*at != name) {
        at = &(*at)->more;
    }
    *at = name->more;
    struct node *dir = name->dir;
    table_remove(&served.names, &name->link);
    free(name);
    dir->children--;
    node_free_if_unknown(dir);
}

/* The node that a name of a directory is known to lead to, or NULL. */
struct node *name_find(const struct node *dir, const char *text) {
    struct name *name = name_at(dir, text);
    return name == NULL ? NULL : name->node;
}

/* Makes it known what a name leads to; or, with NULL, that it leads to nothing that is known. It
 * may free the directory, if the kernel does not know that. */
void name_set(struct node *dir, const char *text, struct node *node) {
    struct name *name = name_at(dir, text);
    if (name != NULL && name->node == node) {
        return;
    }
    if (node != NULL) {
        size_t size = strlen(text) + 1;
        struct name *added = allocate(sizeof *added + size);
        memcpy(added->text, text, size);
        added->dir = dir;
        added->node = node;
        added->more = node->names;
        node->names = added;
        dir->children++;
        table_add(&served.names, &added->link, name_hash(dir, text));
    }
    if (name != NULL) {
        name_remove(name);
    }
}

/* ---- paths */

static bool put_before(struct path *path, const char *name) {
    size_t len = strlen(name);
    if (path->len + len + 1 > sizeof path->room) {
        return false;
    }
    path->len += len + 1;
    path->at -= len + 1;
    char *to = path->room + sizeof path->room - path->len;
    to[0] = '/';
    memcpy(to + 1, name, len);
    return true;
}

/* The path of a node, or of a name in it. ESTALE: its step has ended, or it has no name now. */
uint32_t path_of(const struct node *node, const char *name, struct path *path) {
    path->at = path->room + sizeof path->room;
    path->len = 0;
    if (node->step == NULL || !node->step->is_live) {
        return ESTALE;
    }
    bool has_room = name == NULL || put_before(path, name);
    while (has_room && node->names != NULL) {
        has_room = put_before(path, node->names->text);
        node = node->names->dir;
    }
    if (!has_room) {
        return ENAMETOOLONG;
    }
    if (path->len == 0) {
        put_before(path, "");
    }
    return node->number == 1 ? 0 : ESTALE;
}

/* ---- what is known of them */

void node_tell(struct node *node, const nuz_answer *answer) {
    node->is_told = true;
    node->told = (struct told){
        .kind = answer->kind,
        .mode = answer->mode,
        .owner = answer->owner,
        .group = answer->group,
        .links = answer->links,
        .size = answer->size,
        .has_time = answer->has_time,
        .time = { answer->seconds, answer->nanoseconds },
    };
}

static mode_t type_of(uint32_t kind) {
    return kind == NUZ_DIR ? S_IFDIR : kind == NUZ_FILE ? S_IFREG : S_IFLNK;
}

/* A file has its time, or that of its last write until the tree has one; a directory that of its
 * last change, as far as the mount has seen one. */
static struct timespec time_of(const struct node *node) {
    if (node->told.has_time && !node->is_untimed) {
        return node->told.time;
    }
    return node->time.tv_sec == 0 ? served.born : node->time;
}

void node_status(const struct node *node, struct stat *status) {
    const struct told *told = &node->told;
    bool is_link = told->kind == NUZ_LINK;
    *status = (struct stat){
        .st_ino = shown_number(node),
        .st_mode = type_of(told->kind) | told->mode,
        .st_nlink = (nlink_t)told->links,
        .st_uid = is_link ? served.user : told->owner,
        .st_gid = is_link ? served.group : told->group,
        .st_size = (off_t)told->size,
        .st_blksize = 4096,
        .st_blocks = (blkcnt_t)((told->size + 511) / 512),
        .st_mtim = time_of(node),
    };
    status->st_atim = status->st_ctim = status->st_mtim;
}
