/* calls.h: the kernel's requests, as the files share them in which they are carried out. */
#ifndef NUZ_CALLS_H
#define NUZ_CALLS_H

#include "mount.h"

/* The tree and the transaction of a node, and a path, as calls of the tree take them. */
#define IN(node) served.tree, (node)->step->txn
#define AT(path) (path).at, (path).len

/* The most bytes of a request. */
enum { MOST_BYTES = 1 << 20 };

/* The value that the kernel keeps of an open file: whether it may be written. */
enum { READS = 0, WRITES = 1 };

/* ---- attributes.c */

operation make_getattr, make_setattr;

/* Counts a call of the node's step that was granted, and returns its code. */
uint32_t counted_for(const struct node *node, const nuz_answer *answer, uint32_t code);

/* Learns what a stat says of a node, unless it is known. */
uint32_t learn(struct node *node);

/* Takes from a file the bits by which it runs as another: if its owner is set, or somebody who is
 * not root changes its bytes. */
uint32_t take_set_id(struct node *node);

/* The status of a node, as stat shows it: DIR and the control file are nodes too. */
void any_status(const struct node *node, struct stat *status);

/* ---- names.c */

operation make_lookup, make_mkdir, make_rmdir, make_symlink, make_readlink, make_link;
operation make_unlink, make_rename;

/* Learns what a name in a directory leads to. */
uint32_t look_up(struct node *dir, const char *name, struct node **node);

/* The attributes of a node, for the kernel. */
struct fuse_entry_param entry_of(struct node *node);
uint32_t reply_entry(const struct request *request, struct node *node);

/* The owner of what a program makes: that program's user and group, except the group of a directory
 * with S_ISGID. */
struct told owners_of_new(const struct request *request);

/* Gives what was made its owner and group, which are 0 in the tree. */
uint32_t own(struct node *node, const struct path *path, struct told owners);

/* Makes a node of what a granted call has made under a name, whose stamp is its number. */
struct node *made(const struct request *request, const nuz_answer *answer, struct told told);

/* ---- files.c */

operation make_open, make_create, make_mknod, make_release, make_read, make_write;

/* Cuts a file to a size, by its descriptor if it has one. */
uint32_t cut(struct node *node, int64_t size);

/* ---- lists.c */

operation list_open, list_read, list_release;

#endif
