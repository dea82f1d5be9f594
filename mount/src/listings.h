// Pages of a listing, for readdir(3), with the attributes of each name.
#ifndef LISTINGS_H
#define LISTINGS_H
#define FUSE_USE_VERSION 35
#include "fs_ops.h"
#include <fuse3/fuse_lowlevel.h>

struct page_args {
    struct inode *directory;
    struct bytes *names; // of the open directory: as they were when it was read from its beginning
    size_t capacity;
    off_t at;     // 0: its beginning
    bool is_plus; // what is at each name is told with it
};

// Answers a request for a page. Called with no lock, by the thread that serves requests; where there may be many names,
// another one lists and answers.
void listing_answer(const struct request *request, const struct page_args *args);
#endif
