// Pages of a listing.
//
// Invariant: the names of an open directory are those that it had at one moment of the request that read it from its
// beginning. A list that may be long is made by a worker, of a fork, and becomes that of the open directory under the
// request lock. The kernel closes no directory while a request on it is not answered.
#include "listings.h"
#include "answers.h"
#include "entry_count.h"
#include "memlimit.h"
#include "requests.h"
#include "workers.h"
#include <errno.h>
#include <string.h>
#include <sys/stat.h>
#include <time.h>

// A directory with more names is listed by a worker, and so is one whose number of names is not known, in a tree with
// more. Of a page others wait for no more than so many names.
enum { MANY_NAMES = 1000, MANY_IN_TREE = 10000, MOST_OF_A_PAGE = 128, REST_NANOSECONDS = 50000 };
// The number of an entry that is not known, as libfuse has it.
#define NO_NUMBER 0xffffffff

// A page that is put together.
struct page {
    const struct request *request;
    const struct page_args *args;
    char *out;
    size_t length;
    off_t at;      // the place of the next name
    bool has_more; // enough names were looked for, and others come after
};

// What is reported of a name.
struct line {
    const char *name;
    struct fuse_entry_param param;
    struct inode *held; // what the kernel holds by it; null: nothing
    off_t next;         // the place after it
};

// Puts a line in: false where there is no room left.
static bool put_line(struct page *page, const struct line *line) {
    char *to = page->out + page->length;
    size_t capacity = page->args->capacity - page->length, size;
    if (page->args->is_plus)
        size = fuse_add_direntry_plus(page->request->req, to, capacity, line->name, &line->param, line->next);
    else size = fuse_add_direntry(page->request->req, to, capacity, line->name, &line->param.attr, line->next);
    if (size > capacity) return false;
    if (line->held) line->held->nlookup++;
    page->length += size;
    return true;
}

// `.` or `..`, whose number no look-up gives. Above the root is what the kernel has there.
static bool put_dots(struct page *page, const char *name, off_t next) {
    const struct inode *directory = page->args->directory;
    if (name[1] && directory->parent) directory = directory->parent;
    struct stat stat = {.st_mode = S_IFDIR, .st_ino = directory->ino};
    return put_line(page, &(struct line){.name = name, .param.attr = stat, .next = next});
}

// A name of the listing: what stands there, or its number alone. A name that is gone is left out.
static bool put_name(struct page *page, const char *name, bool is_directory, off_t next) {
    struct line line = {.name = name, .next = next};
    struct inode *directory = page->args->directory;
    struct inode *known = page->args->is_plus ? NULL : inode_find(directory, name);
    struct lookup_result result = {.inode = known};
    int err = known ? 0 : fs_lookup(page->request->mount, directory, name, &result);
    if (err == ENOENT) return true;
    if (!err && known) err = fs_getattr(page->request->mount, known, &result.stat);
    line.param.attr.st_mode = err ? is_directory ? S_IFDIR : S_IFREG : result.stat.st_mode;
    line.param.attr.st_ino = err ? NO_NUMBER : result.inode->ino;
    if (!err && page->args->is_plus) {
        line.param = requests_entry(&result);
        line.held = result.inode;
    }
    return put_line(page, &line);
}

// The place of the first name at or after a place that lseek(2) may have named.
static size_t path_of_name(const struct bytes *names, size_t from) {
    bool is_inside = from > 0 && from < names->length && names->at[from - 1];
    return is_inside ? from + strlen(names->at + from) + 1 : from;
}

// Place 0 is before `.`, 1 before `..`, and 2 and so many bytes of the listing before each name.
static void put_names(struct page *page) {
    const struct bytes *names = page->args->names;
    unsigned left = MOST_OF_A_PAGE;
    page->has_more = false;
    if (page->at == 0 && !put_dots(page, ".", ++page->at)) return;
    if (page->at == 1 && !put_dots(page, "..", ++page->at)) return;
    size_t from = path_of_name(names, (size_t)page->at - 2);
    for (; left && from < names->length; left--) {
        const char *name = names->at + from;
        from += strlen(name) + 1;
        if (!put_name(page, name + 1, name[0] == 'd', (off_t)from + 2)) return;
    }
    page->at = (off_t)from + 2;
    page->has_more = from < names->length;
}

// Under the request lock.
static int fill_page(struct page *page) {
    page->out = mem_alloc(page->args->capacity);
    if (!page->out) return ENOMEM;
    page->at = page->args->at;
    if (page->at >= 0) put_names(page);
    return 0;
}

// Whether all names that were looked for are gone, and others come after: an empty page would be the listing's end.
static bool is_to_go_on(const struct page *page) { return !page->length && page->has_more; }

// Called with no lock. Between two parts there is a rest: so a request that waits for the lock gets it.
static int go_on(struct page *page) {
    int err = 0;
    while (!err && is_to_go_on(page)) {
        nanosleep(&(struct timespec){0, REST_NANOSECONDS}, NULL);
        err = requests_begin(page->request);
        if (!err) put_names(page);
        err = requests_end(page->request, err);
    }
    return err;
}

static void answer_page(struct page *page, int err) {
    if (!answer_failed(page->request, err)) fuse_reply_buf(page->request->req, page->out, page->length);
    mem_free(page->out);
}

static uint64_t count_names(const struct bytes *names) {
    uint64_t count = 0;
    for (size_t at = 0; at < names->length; at += strlen(names->at + at) + 1) count++;
    return count;
}

// ---- by the thread that serves requests

static bool is_wanted(const struct page_args *args) { return args->at == 0 || !args->names->at; }

// A directory that is gone has no names.
static int list_now(const struct request *request, const struct page_args *args) {
    args->names->length = 0;
    int err = fs_readdir(request->mount, args->directory, args->names);
    if (!err) entry_count_note(request->mount, args->directory, count_names(args->names));
    return err == ENOENT ? 0 : err;
}

// ---- by a worker

struct long_listing {
    struct request request;
    struct page_args args;
    struct doorvervain tree; // a fork
    char path[LONGEST_PATH + 1];
};

// The names become those of the open directory.
static void take_names(const struct long_listing *listing, struct bytes *names) {
    struct bytes former = *listing->args.names;
    fs_hide_reserved(listing->args.directory, names);
    *listing->args.names = *names;
    *names = former;
}

static void list_and_answer(void *self) {
    struct long_listing *listing = self;
    const struct request *request = &listing->request;
    struct page page = {.request = request, .args = &listing->args};
    struct bytes names = {NULL};
    int listed = worker_list(&listing->tree, listing->path, &names);
    uint64_t count = count_names(&names);
    doorvervain_close(&listing->tree);
    int err = requests_begin(request);
    if (!err) err = listed;
    if (!err) entry_count_note(request->mount, listing->args.directory, count);
    if (!err) take_names(listing, &names);
    if (!err) err = fill_page(&page);
    err = requests_end(request, err);
    if (!err) err = go_on(&page);
    answer_page(&page, err);
    bytes_free(&names);
    mem_free(listing);
}

static bool may_be_long(const struct mount *mount, const struct inode *directory) {
    if (!mount->backend.tree || directory->role == SNAPSHOT_FOLDER) return false;
    bool is_known = directory->names_gen == mount->tree_gen;
    return entry_count_guess(mount, directory) > (is_known ? MANY_NAMES : MANY_IN_TREE);
}

// Begins a listing in a fork; null: it is to be made at once.
static struct long_listing *begin_long(const struct request *request, const struct page_args *args) {
    struct resolved_path resolved;
    if (inode_path(args->directory, NULL, &resolved)) return NULL;
    struct long_listing *listing = mem_alloc(sizeof *listing);
    if (!listing) return NULL;
    *listing = (struct long_listing){.request = *request, .args = *args};
    memcpy(listing->path, resolved.path, strlen(resolved.path) + 1);
    if (!worker_fork(request->mount, resolved.snapshot, &listing->tree)) return listing;
    mem_free(listing);
    return NULL;
}

static bool has_left(struct long_listing *listing) {
    if (!listing) return false;
    if (!worker_start(list_and_answer, listing)) return true;
    doorvervain_close(&listing->tree);
    mem_free(listing);
    return false;
}

// A page that goes on.
struct long_page {
    struct request request;
    struct page_args args;
    struct page page;
};

static void go_on_and_answer(void *self) {
    struct long_page *copy = self;
    answer_page(&copy->page, go_on(&copy->page));
    mem_free(copy);
}

// A replica has one thread.
static bool page_has_left(const struct page *page) {
    if (!is_to_go_on(page) || page->request->mount->replica) return false;
    struct long_page *copy = mem_alloc(sizeof *copy);
    if (!copy) return false;
    *copy = (struct long_page){*page->request, *page->args, *page};
    copy->page.request = &copy->request;
    copy->page.args = &copy->args;
    if (!worker_start(go_on_and_answer, copy)) return true;
    mem_free(copy);
    return false;
}

void listing_answer(const struct request *request, const struct page_args *args) {
    struct page page = {.request = request, .args = args};
    int err = requests_begin(request);
    bool is_long = !err && is_wanted(args) && may_be_long(request->mount, args->directory);
    if (is_long && has_left(begin_long(request, args))) {
        requests_end(request, 0);
        return;
    }
    if (!err && is_wanted(args)) err = list_now(request, args);
    if (!err) err = fill_page(&page);
    err = requests_end(request, err);
    if (!err && page_has_left(&page)) return;
    if (!err) err = go_on(&page);
    answer_page(&page, err);
}
