// The model of a file system that threads.c compares volumes with: arrays of entries, and docs/PROFILE.md's cases in order.
#ifndef THREADS_MODEL_H
#define THREADS_MODEL_H

#include "doorvervain.h"
#include <stdio.h>
#include <string.h>

// A tree has FOLDERS names in its root and FILES names below each. A file has up to CELLS * STRIDE bytes, all of them zeros but those of
// its cells: CELL bytes at each multiple of STRIDE.
enum { FOLDERS = 12, FILES = 20, CELLS = 4, CELL = 8, STRIDE = 1500, MOST = CELLS * STRIDE };

struct entry {
    uint8_t kind; // 0 if the entry does not exist
    uint64_t size, modified;
    uint8_t cell[CELLS][CELL];
};

// A tree: its root at [0][0]; [1 + i][0] is what the root has under its name i, and [1 + i][1 + j] what is below that.
struct model {
    struct entry at[1 + FOLDERS][1 + FILES];
};

// A path of the model: two indexes of `at`, where 0 means that it has no name more.
struct place {
    int folder, file;
};

static struct entry *entry_of(struct model *model, struct place it) { return &model->at[it.folder][it.file]; }

static struct place parent_of(struct place it) { return (struct place){it.file ? it.folder : 0, 0}; }

static int is_root(struct place it) { return !it.folder; }

static int is_same(struct place one, struct place other) { return one.folder == other.folder && one.file == other.file; }

static int is_below(struct place it, struct place above) { return it.file && !above.file && it.folder == above.folder; }

static int is_dir(struct model *model, struct place it) { return entry_of(model, it)->kind == DOORVERVAIN_DIRECTORY; }

static int exists(struct model *model, struct place it) { return entry_of(model, it)->kind != 0; }

static void begin_model(struct model *model) {
    memset(model, 0, sizeof *model);
    model->at[0][0].kind = DOORVERVAIN_DIRECTORY;
}

// The error for a path whose parent is not a directory; else 0.
static uint8_t parent_fault(struct model *model, struct place it) {
    if (is_root(it) || is_dir(model, parent_of(it))) return DOORVERVAIN_DONE;
    return exists(model, parent_of(it)) ? DOORVERVAIN_ENOTDIR : DOORVERVAIN_ENOENT;
}

// The error for a path that does not exist; else 0.
static uint8_t path_fault(struct model *model, struct place it) {
    uint8_t fault = parent_fault(model, it);
    return fault ? fault : exists(model, it) ? DOORVERVAIN_DONE : DOORVERVAIN_ENOENT;
}

// The error for a path that is not a file; else 0.
static uint8_t file_fault(struct model *model, struct place it) {
    uint8_t fault = path_fault(model, it);
    return fault ? fault : is_dir(model, it) ? DOORVERVAIN_EISDIR : DOORVERVAIN_DONE;
}

static int has_entries(struct model *model, struct place it) {
    if (it.file) return 0;
    for (int i = 1; i <= (it.folder ? FILES : FOLDERS); i++)
        if (it.folder ? model->at[it.folder][i].kind : model->at[i][0].kind) return 1;
    return 0;
}

static void stamp_parent(struct model *model, struct place it, uint64_t at) {
    entry_of(model, parent_of(it))->modified = at;
}

static uint8_t model_create(struct model *model, struct place it, uint8_t kind, uint64_t at) {
    uint8_t fault = is_root(it) ? DOORVERVAIN_EEXIST : parent_fault(model, it);
    if (fault) return fault;
    if (exists(model, it)) return DOORVERVAIN_EEXIST;
    *entry_of(model, it) = (struct entry){.kind = kind, .modified = at};
    stamp_parent(model, it, at);
    return DOORVERVAIN_DONE;
}

// Removes an entry with everything below it.
static void remove_entry(struct model *model, struct place it, uint64_t at) {
    if (it.file) {
        memset(entry_of(model, it), 0, sizeof(struct entry));
    } else {
        memset(model->at[it.folder], 0, sizeof model->at[it.folder]);
    }
    stamp_parent(model, it, at);
}

static uint8_t model_unlink(struct model *model, struct place it, uint64_t at) {
    uint8_t fault = path_fault(model, it);
    if (fault) return fault;
    if (is_dir(model, it)) return DOORVERVAIN_EPERM;
    remove_entry(model, it, at);
    return DOORVERVAIN_DONE;
}

static uint8_t model_rmdir(struct model *model, struct place it, uint64_t at) {
    uint8_t fault = is_root(it) ? DOORVERVAIN_EBUSY : path_fault(model, it);
    if (fault) return fault;
    if (!is_dir(model, it)) return DOORVERVAIN_ENOTDIR;
    if (has_entries(model, it)) return DOORVERVAIN_ENOTEMPTY;
    remove_entry(model, it, at);
    return DOORVERVAIN_DONE;
}

static uint8_t model_rmtree(struct model *model, struct place it, uint64_t at) {
    uint8_t fault = is_root(it) ? DOORVERVAIN_EBUSY : path_fault(model, it);
    if (!fault) remove_entry(model, it, at);
    return fault;
}

// The error of a rename of an entry that exists to another path, if the entry there may not be replaced; else 0.
static uint8_t replace_fault(struct model *model, struct place from, struct place to) {
    if (!exists(model, to)) return DOORVERVAIN_DONE;
    if (is_dir(model, to) && !is_dir(model, from)) return DOORVERVAIN_EISDIR;
    if (!is_dir(model, to) && is_dir(model, from)) return DOORVERVAIN_ENOTDIR;
    return has_entries(model, to) ? DOORVERVAIN_ENOTEMPTY : DOORVERVAIN_DONE;
}

static void move_entry(struct model *model, struct place from, struct place to) {
    if (from.file || to.file) {
        *entry_of(model, to) = *entry_of(model, from);
        memset(entry_of(model, from), 0, sizeof(struct entry));
    } else {
        memcpy(model->at[to.folder], model->at[from.folder], sizeof model->at[to.folder]);
        memset(model->at[from.folder], 0, sizeof model->at[from.folder]);
    }
}

// Renames an entry. A directory that has entries is only renamed within the root: the model has no place for it elsewhere.
static uint8_t model_rename(struct model *model, struct place from, struct place to, uint64_t at) {
    uint8_t fault = is_root(from) ? DOORVERVAIN_EBUSY : path_fault(model, from);
    if (fault || is_same(from, to)) return fault;
    if (is_dir(model, from) && is_below(to, from)) return DOORVERVAIN_EINVAL;
    fault = parent_fault(model, to);
    if (!fault) fault = replace_fault(model, from, to);
    if (fault) return fault;
    move_entry(model, from, to);
    stamp_parent(model, from, at);
    stamp_parent(model, to, at);
    return DOORVERVAIN_DONE;
}

static int has_a_place(struct model *model, struct place from, struct place to) {
    return !to.file || !has_entries(model, from) || is_below(to, from);
}

// Sets the bytes of a file's cells from `begin` to `end` to zero.
static void clear_bytes(struct entry *file, uint64_t begin, uint64_t end) {
    for (uint64_t i = 0; i < CELLS * CELL; i++) {
        uint64_t offset = i / CELL * STRIDE + i % CELL;
        if (offset >= begin && offset < end) file->cell[i / CELL][i % CELL] = 0;
    }
}

static uint8_t model_write(struct model *model, struct place it, int cell, const uint8_t *bytes, size_t count, uint64_t at) {
    uint8_t fault = file_fault(model, it);
    if (fault || !count) return fault;
    struct entry *file = entry_of(model, it);
    uint64_t end = (uint64_t)cell * STRIDE + count;
    memcpy(file->cell[cell], bytes, count);
    if (file->size < end) file->size = end;
    file->modified = at;
    return DOORVERVAIN_DONE;
}

static uint8_t model_truncate(struct model *model, struct place it, uint64_t size, uint64_t at) {
    uint8_t fault = file_fault(model, it);
    if (fault) return fault;
    struct entry *file = entry_of(model, it);
    clear_bytes(file, size, MOST);
    file->size = size;
    file->modified = at;
    return DOORVERVAIN_DONE;
}

static uint8_t model_punch(struct model *model, struct place it, uint64_t offset, uint64_t count, uint64_t at) {
    uint8_t fault = file_fault(model, it);
    struct entry *file = entry_of(model, it);
    if (fault || offset >= file->size || !count) return fault;
    clear_bytes(file, offset, offset + count);
    file->modified = at;
    return DOORVERVAIN_DONE;
}

// Copies at most `count` bytes of a cell of a file to a cell of another or the same one, as far as the first file has them.
static uint8_t model_copy(
    struct model *model, struct place from, int cell, struct place to, int target, uint64_t count, uint64_t at, uint64_t *copied) {
    uint8_t bytes[CELL], fault = file_fault(model, from);
    uint64_t offset = (uint64_t)cell * STRIDE, size = entry_of(model, from)->size, rest = size > offset ? size - offset : 0;
    *copied = 0;
    if (fault) return fault;
    if (count > rest) count = rest;
    memcpy(bytes, entry_of(model, from)->cell[cell], CELL);
    fault = model_write(model, to, target, bytes, count, at);
    if (!fault) *copied = count;
    return fault;
}

static uint8_t model_set_mtime(struct model *model, struct place it, uint64_t at) {
    uint8_t fault = path_fault(model, it);
    if (!fault) entry_of(model, it)->modified = at;
    return fault;
}

// The bytes of a file, MOST of them with zeros after its end.
static void bytes_of(const struct entry *file, uint8_t *out) {
    memset(out, 0, MOST);
    for (int cell = 0; cell < CELLS; cell++)
        memcpy(out + cell * STRIDE, file->cell[cell], CELL);
}

// The listing of a directory, as doorvervain_readdir writes it. Returns its size.
static size_t listing_of(struct model *model, struct place it, char *out) {
    size_t size = 0;
    for (int i = 1; !it.file && i <= (it.folder ? FILES : FOLDERS); i++) {
        uint8_t kind = it.folder ? model->at[it.folder][i].kind : model->at[i][0].kind;
        if (kind) size += (size_t)sprintf(out + size, "%cn%02d", kind == DOORVERVAIN_DIRECTORY ? 'd' : 'f', i) + 1;
    }
    return size;
}

#endif
