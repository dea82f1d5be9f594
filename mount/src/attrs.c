// Reads, writes, moves and removes attribute records ("Attribute record" in docs/FORMATS.md).
//
// Validity: a record counts if the library's parser accepts its whole text; any other text is reported once and passed
// over, as if there were none. Invariant: an inode with the default attributes has no record, and every change of one
// is a call of the request's transaction, so it is undone with the request. What an inode caches is right while its
// `attrs_gen` is the mount's `tree_gen`.
#include "attrs.h"
#include "exit_report.h"
#include "packed.h"
#include "text.h"
#include <errno.h>
#include <stdio.h>
#include <string.h>
#include <unistd.h>

enum { USUAL_MODE = 0644, USUAL_FOLDER_MODE = 0755 };
#define CAPABILITY "security.capability"

// Where the record of a path lies.
struct record_path {
    char folder[LONGEST_PATH + 1]; // empty: it lies beside a file of the mount's own
    char file[LONGEST_PATH + 1];
};

static bool is_private(const char *path) {
    size_t length = sizeof PRIVATE_PATH - 1;
    return !strncmp(path, PRIVATE_PATH, length) && path[length] == '/';
}

static int form_path(uint8_t (*form)(const char *, size_t, void *, size_t, size_t *), const char *path,
                     char out[LONGEST_PATH + 1]) {
    size_t size = 0;
    uint8_t number = form(path, strlen(path), out, LONGEST_PATH, &size);
    out[size < LONGEST_PATH ? size : LONGEST_PATH] = 0;
    return doorvervain_errno(number);
}

// A request asks for the record of a path more than once: the last one is remembered. A path is not empty.
static int form_record_path(struct record_cache *last, const char *path, char out[LONGEST_PATH + 1]) {
    if (strcmp(path, last->path)) {
        last->path[0] = 0;
        int err = form_path(doorvervain_attr_path, path, last->record);
        if (err) return err;
        snprintf(last->path, sizeof last->path, "%s", path);
    }
    memcpy(out, last->record, sizeof last->record);
    return 0;
}

// The path of a record names the directory that it lies in.
static int find_record(struct mount *mount, const char *path, struct record_path *out) {
    out->folder[0] = 0;
    if (is_private(path)) {
        int length = snprintf(out->file, sizeof out->file, "%s.record", path);
        return (size_t)length < sizeof out->file ? 0 : ENAMETOOLONG;
    }
    int err = form_record_path(&mount->last_record, path, out->file);
    if (err) return err;
    size_t length = (size_t)(strrchr(out->file, '/') - out->file);
    memcpy(out->folder, out->file, length);
    out->folder[length] = 0;
    return 0;
}

int attrs_can_store(struct mount *mount, const char *path) {
    struct record_path record_path;
    return find_record(mount, path, &record_path);
}

struct attrs attrs_default(const struct mount *mount, bool is_directory) {
    return (struct attrs){.base = {.kind = is_directory ? DOORVERVAIN_DIRECTORY : DOORVERVAIN_FILE,
                                   .mode = is_directory ? USUAL_FOLDER_MODE : USUAL_MODE,
                                   .user = mount->user,
                                   .group = mount->group,
                                   .names = 1}};
}

static bool is_default(const struct mount *mount, const struct attrs *attrs) {
    const struct doorvervain_attributes *base = &attrs->base;
    bool is_directory = base->kind == DOORVERVAIN_DIRECTORY;
    return (is_directory || base->kind == DOORVERVAIN_FILE) && base->user == mount->user &&
           base->group == mount->group && base->names == 1 && !base->has_modified && !attrs->has_extended &&
           base->mode == (is_directory ? USUAL_FOLDER_MODE : USUAL_MODE);
}

// ---- reading

static int read_text(struct mount *mount, struct path_ref ref, size_t length, struct bytes *out) {
    if (length > LARGEST_READ) return EFBIG;
    int err = bytes_reserve(out, length + 1);
    return err ? err : backend_read(&mount->backend, ref, 0, out->at, length, &out->length);
}

// Whether what a record says fits what stands there.
static bool fits(const struct doorvervain_attributes *base, bool is_directory, bool is_of_links) {
    if (base->kind == DOORVERVAIN_OTHER_NAME && is_of_links) return false;
    return base->names && is_directory == (base->kind == DOORVERVAIN_DIRECTORY);
}

static void note_extended(struct attrs *attrs, const struct bytes *extended) {
    attrs->has_extended = extended && extended->length;
    attrs->has_capability = attrs->has_extended && packed_has(extended, CAPABILITY);
}

static int parse(const struct bytes *text, struct attrs *out, struct bytes *extended) {
    struct bytes unasked = {NULL}, *packed = extended ? extended : &unasked;
    int err = bytes_reserve(packed, text->length + 1);
    if (!err)
        err = doorvervain_errno(doorvervain_attr_decode((const uint8_t *)text->at, text->length, &out->base,
                                                        (uint8_t *)packed->at, text->length, &packed->length));
    note_extended(out, packed);
    bytes_free(&unasked);
    return err;
}

void attrs_untrust(const struct mount *mount, struct doorvervain_attributes *base) {
    if (mount->trusts_attributes) return;
    base->user = mount->user;
    base->group = mount->group;
    base->mode &= base->kind == DOORVERVAIN_DIRECTORY ? ~(uint32_t)S_ISUID : ~(uint32_t)(S_ISUID | S_ISGID);
}

static int read_record(struct mount *mount, const struct resolved_path *resolved, struct path_ref ref, size_t length,
                       bool is_directory, struct attrs *out, struct bytes *extended) {
    struct bytes text = {NULL};
    int err = read_text(mount, ref, length, &text);
    if (!err) err = parse(&text, out, extended);
    bytes_free(&text);
    if (err == ENOMEM) return err;
    if (!err && fits(&out->base, is_directory, is_private(resolved->path))) {
        attrs_untrust(mount, &out->base);
        return 0;
    }
    if (!mount->has_warned)
        exit_report_error("a record that cannot be read is passed over, of ", resolved->path, EINVAL);
    mount->has_warned = true;
    if (extended) extended->length = 0;
    *out = attrs_default(mount, is_directory);
    return 0;
}

int attrs_read(struct mount *mount, const struct resolved_path *resolved, bool is_directory, struct attrs *out,
               struct bytes *extended) {
    struct record_path of;
    struct node_stat node_stat = {0};
    *out = attrs_default(mount, is_directory);
    if (find_record(mount, resolved->path, &of)) return 0;
    struct path_ref ref = {resolved->snapshot, of.file};
    int err = backend_stat(&mount->backend, ref, &node_stat);
    if (!err && !node_stat.is_directory)
        err = read_record(mount, resolved, ref, node_stat.length, is_directory, out, extended);
    else if (err == ENOENT || err == ENOTDIR || node_stat.is_directory) return 0;
    out->has_record = !err;
    out->changed = node_stat.mtime_ns;
    return err;
}

// Whether a directory has records below it, by a look. Where that cannot be told, it may have some.
static bool look_for_records(struct mount *mount, const struct inode *directory) {
    struct resolved_path resolved;
    struct node_stat node_stat;
    char folder[LONGEST_PATH + 1];
    if (inode_path(directory, NULL, &resolved) || form_path(doorvervain_attr_dir, resolved.path, folder)) return true;
    return backend_stat(&mount->backend, (struct path_ref){resolved.snapshot, folder}, &node_stat) != ENOENT;
}

// Whether nothing below a directory has a record. That is remembered until a directory for records comes or goes.
static bool no_records_below(struct mount *mount, struct inode *directory) {
    if (!directory || directory->role == PRIVATE_DIR) return false;
    if (directory->records_gen != mount->record_dirs_gen)
        directory->no_records_below = !look_for_records(mount, directory);
    directory->records_gen = mount->record_dirs_gen;
    return directory->no_records_below;
}

int attrs_read_name(struct mount *mount, struct inode *parent, const struct resolved_path *resolved, bool is_directory,
                    struct attrs *out) {
    if (!no_records_below(mount, parent)) return attrs_read(mount, resolved, is_directory, out, NULL);
    *out = attrs_default(mount, is_directory);
    return 0;
}

int attrs_read_extended(struct txn *txn, const char *path, struct bytes *out) {
    struct record_path record_path;
    struct attrs read;
    const struct bytes *text;
    int err = find_record(txn->mount, path, &record_path);
    if (!err) err = txn_read(txn, record_path.file, &text);
    return err ? err : parse(text, &read, out);
}

void attrs_remember(struct mount *mount, struct inode *inode, const struct attrs *attrs) {
    inode->attrs = *attrs;
    inode->attrs_gen = mount->tree_gen;
}

// Of a listing of a mirrored folder, in which names that begin with byte 1 have one more, and byte 1 alone is a record.
static void unmirror(struct bytes *listing) {
    size_t kept = 0;
    for (size_t at = 0, size; at < listing->length; at += size) {
        size = strlen(listing->at + at) + 1;
        bool is_escaped = listing->at[at + 1] == 1;
        if (is_escaped && size == 3) continue;
        listing->at[kept] = listing->at[at];
        memmove(listing->at + kept + 1, listing->at + at + 1 + is_escaped, size - 1 - is_escaped);
        kept += size - is_escaped;
    }
    listing->length = kept;
}

int attrs_list(struct mount *mount, struct inode *directory, struct bytes *out) {
    struct resolved_path resolved;
    char folder[LONGEST_PATH + 1];
    if (no_records_below(mount, directory)) return 0;
    int err = inode_path(directory, NULL, &resolved);
    if (!err) err = form_path(doorvervain_attr_dir, resolved.path, folder);
    if (!err) err = backend_readdir(&mount->backend, (struct path_ref){resolved.snapshot, folder}, out);
    if (!err) unmirror(out);
    return err;
}

int attrs_of(struct mount *mount, struct inode *inode, const struct attrs **out) {
    struct resolved_path resolved;
    struct attrs read = attrs_default(mount, inode->is_directory);
    bool is_gone = !inode->parent && inode->role != LIVE_ROOT;
    *out = &inode->attrs;
    if (inode->attrs_gen == mount->tree_gen || (is_gone && inode->attrs_gen)) return 0;
    if (is_gone || inode->role == SNAPSHOT_FOLDER) {
        attrs_remember(mount, inode, &read);
        return 0;
    }
    int err = inode_path(inode, NULL, &resolved);
    if (!err) err = attrs_read(mount, &resolved, inode->is_directory, &read, NULL);
    if (!err) attrs_remember(mount, inode, &read);
    return err;
}

// ---- writing

static int make_folder_once(struct txn *txn, const char *path) {
    return txn_create(txn, CALL_MKDIR, path, txn->at, txn->at);
}

// What is at a path goes, and a directory comes.
static int make_folder_instead(struct txn *txn, const char *path) {
    int err = txn_remove(txn, path);
    return err ? err : make_folder_once(txn, path);
}

// Makes one directory. A file that an image has in its place goes.
static int make_folder(struct txn *txn, const char *path) {
    const struct backend *backend = &txn->mount->backend;
    struct node_stat node_stat;
    int err = make_folder_once(txn, path);
    if (err != EEXIST) return err;
    err = backend_stat(backend, (struct path_ref){NULL, path}, &node_stat);
    return err || node_stat.is_directory ? err : make_folder_instead(txn, path);
}

// Makes a directory for records, and those above it that do not stand.
static int make_folders(struct txn *txn, const char *path) {
    char part[LONGEST_PATH + 1];
    size_t length = strlen(path), end = length;
    int err = private_make(txn->mount, PRIVATE_ROOT);
    if (err) return err;
    memcpy(part, path, length + 1);
    txn->mount->record_dirs_gen++;
    while ((err = make_folder(txn, part)) == ENOENT || err == ENOTDIR) {
        end = (size_t)(strrchr(part, '/') - part);
        if (end < sizeof PRIVATE_PATH) return EIO;
        part[end] = 0;
    }
    while (!err && end < length) {
        part[end] = '/';
        end = strlen(part);
        err = make_folder(txn, part);
    }
    return err;
}

static int print(const struct attrs *attrs, const struct bytes *extended, struct bytes *out) {
    const uint8_t *packed = (const uint8_t *)(extended && extended->length ? extended->at : "");
    size_t packed_length = extended ? extended->length : 0, size = 4 * packed_length + 512;
    int err = bytes_reserve(out, size);
    if (!err)
        err = doorvervain_errno(
            doorvervain_attr_encode(&attrs->base, packed, packed_length, (uint8_t *)out->at, out->capacity, &size));
    out->length = size;
    return !err && size > LARGEST_READ ? ENOSPC : err;
}

static int make_text(struct txn *txn, const struct record_path *record_path, const struct bytes *text) {
    const struct backend *backend = &txn->mount->backend;
    size_t done;
    int err = txn_create(txn, CALL_CREATE, record_path->file, txn->at, txn->at);
    return err ? err : backend->ops->write(backend->self, record_path->file, 0, text->at, text->length, txn->at, &done);
}

// What stands there is an earlier record or nothing; or a directory, which an image had there, and which goes.
static int put_text(struct txn *txn, const struct record_path *record_path, const struct bytes *text) {
    int err = txn_write(txn, record_path->file, text->at, text->length);
    if (err != EISDIR && err != ENOENT && err != ENOTDIR) return err;
    if (err == EISDIR) err = txn_remove(txn, record_path->file);
    else err = record_path->folder[0] ? make_folders(txn, record_path->folder) : 0;
    return err ? err : make_text(txn, record_path, text);
}

// The directory of the record of what was just made. What an image left in its place goes.
static int make_fresh_folder(struct txn *txn, const char *folder) {
    int err = make_folder_once(txn, folder);
    if (err == EEXIST) return make_folder_instead(txn, folder);
    return err == ENOENT || err == ENOTDIR ? make_folders(txn, folder) : err;
}

// The same of an entry that was just made: nothing stands there but what an image left.
static int put_fresh(struct txn *txn, const struct record_path *record_path, const struct bytes *text) {
    int err = record_path->folder[0] ? make_fresh_folder(txn, record_path->folder) : 0;
    if (!err) err = make_text(txn, record_path, text);
    return err == EEXIST ? put_text(txn, record_path, text) : err;
}

typedef int putting(struct txn *txn, const struct record_path *record_path, const struct bytes *text);

static int print_and_put(struct txn *txn, const char *path, const struct attrs *attrs, const struct bytes *extended,
                         putting *put) {
    struct record_path record_path;
    struct bytes text = {NULL};
    int err = find_record(txn->mount, path, &record_path);
    if (!err) err = print(attrs, extended, &text);
    if (!err) err = put(txn, &record_path, &text);
    bytes_free(&text);
    return err;
}

// Notes what the attributes have, and whether there is a record of them from now on: false where there is none.
static bool note_record(const struct txn *txn, struct attrs *attrs, const struct bytes *extended) {
    note_extended(attrs, extended);
    attrs->has_record = !is_default(txn->mount, attrs);
    attrs->changed = attrs->has_record ? txn->at : 0;
    return attrs->has_record;
}

int attrs_write(struct txn *txn, const char *path, struct attrs *attrs, const struct bytes *extended) {
    bool stood = attrs->has_record;
    if (note_record(txn, attrs, extended)) return print_and_put(txn, path, attrs, extended, put_text);
    return stood ? attrs_drop_one(txn, path, NULL) : 0;
}

int attrs_create(struct txn *txn, struct inode *parent, const char *path, struct attrs *attrs,
                 const struct bytes *extended) {
    if (note_record(txn, attrs, extended)) return print_and_put(txn, path, attrs, extended, put_fresh);
    return attrs_drop(txn, parent, path);
}

int attrs_rewrite(struct txn *txn, struct inode *inode, struct attrs *attrs) {
    struct resolved_path resolved;
    struct bytes extended = {NULL};
    int err = inode_path(inode, NULL, &resolved);
    if (err) return err == ENOENT ? 0 : err; // A directory that is gone.
    if (attrs->has_extended) err = attrs_read_extended(txn, resolved.path, &extended);
    if (!err && !attrs->has_capability) packed_take_out(&extended, CAPABILITY);
    if (!err) err = attrs_write(txn, resolved.path, attrs, &extended);
    bytes_free(&extended);
    return err;
}

int attrs_drop(struct txn *txn, struct inode *parent, const char *path) {
    const struct backend *backend = &txn->mount->backend;
    struct node_stat node_stat;
    char folder[LONGEST_PATH + 1];
    if (no_records_below(txn->mount, parent)) return 0;
    int err = form_path(doorvervain_attr_dir, path, folder);
    if (err) return err == ENAMETOOLONG ? 0 : err;
    err = backend_stat(backend, (struct path_ref){NULL, folder}, &node_stat);
    return err == ENOENT ? 0 : txn_remove(txn, folder);
}

// The text of the record of attributes, where they are all that it has.
static bool knows_text(const struct txn *txn, const struct attrs *known, struct bytes *out) {
    if (!known || known->has_extended || !txn->mount->trusts_attributes) return false;
    if (!print(known, NULL, out)) return true;
    bytes_free(out);
    return false;
}

int attrs_erase(struct txn *txn, struct inode *parent, const char *path, const struct attrs *known) {
    struct record_path record_path;
    struct bytes text = {NULL};
    bool is_known = knows_text(txn, known, &text);
    int err = find_record(txn->mount, path, &record_path);
    if (!err) err = txn_remove_record(txn, record_path.folder, record_path.file, is_known ? &text : NULL);
    bytes_free(&text);
    return err && err != ENOMEM ? attrs_drop(txn, parent, path) : err;
}

// The directory above the new one mostly stands.
static int move_folder(struct txn *txn, const char *from, const char *to) {
    char above[LONGEST_PATH + 1];
    int moved = txn_rename(txn, from, to, txn->at, txn->at);
    if (moved != ENOENT && moved != ENOTDIR) return moved;
    text_copy(above, sizeof above, to);
    *strrchr(above, '/') = 0;
    int err = make_folders(txn, above);
    return err ? err : txn_rename(txn, from, to, txn->at, txn->at);
}

int attrs_move(struct txn *txn, struct inode *parent, const char *from, struct inode *new_parent, const char *to) {
    const struct backend *backend = &txn->mount->backend;
    struct node_stat node_stat;
    char old_folder[LONGEST_PATH + 1], new_folder[LONGEST_PATH + 1];
    int err = attrs_drop(txn, new_parent, to);
    if (err || no_records_below(txn->mount, parent)) return err;
    err = form_path(doorvervain_attr_dir, from, old_folder);
    if (err) return err == ENAMETOOLONG ? 0 : err;
    err = backend_stat(backend, (struct path_ref){NULL, old_folder}, &node_stat);
    if (err) return err == ENOENT ? 0 : err;
    err = form_path(doorvervain_attr_dir, to, new_folder);
    return err ? err : move_folder(txn, old_folder, new_folder);
}

int attrs_move_one(struct txn *txn, const char *from, const char *to) {
    struct record_path old_place, new_place;
    int err = find_record(txn->mount, from, &old_place);
    if (!err) err = find_record(txn->mount, to, &new_place);
    if (err) return err;
    return txn_rename(txn, old_place.file, new_place.file, txn->at, txn->at);
}

int attrs_drop_one(struct txn *txn, const char *path, const struct attrs *known) {
    struct record_path record_path;
    struct bytes text = {NULL};
    bool is_known = knows_text(txn, known, &text);
    int err = find_record(txn->mount, path, &record_path);
    if (!err) err = txn_unlink(txn, record_path.file, is_known ? &text : NULL);
    bytes_free(&text);
    return err;
}
