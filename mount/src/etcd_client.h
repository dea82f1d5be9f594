// Requests to the members of etcd, by HTTP and JSON. Each thread has its own client.
#ifndef ETCD_CLIENT_H
#define ETCD_CLIENT_H
#include "backend.h"
#include <curl/curl.h>
#include <jansson.h>

enum { MOST_MEMBERS = 16, MAX_ERROR_TEXT = 160 };

struct members {
    const struct etcd_options *options;
    char *urls[MOST_MEMBERS];
    size_t count;
};

struct etcd_client {
    const struct members *members;
    size_t member; // the member that is asked
    CURL *curl;
    struct curl_slist *headers;
    char *token; // of the user; null: none was asked for
    struct bytes response;
    char last_error[MOST_MEMBERS][MAX_ERROR_TEXT]; // what each member answered last, where that was no answer
};

// Reads the members' names: 0, or EINVAL where one may not be spoken to, which is said.
int members_read(const struct etcd_options *options, struct members *out);
void members_free(struct members *members);

int etcd_open(struct etcd_client *etcd, const struct members *members, size_t first);
void etcd_close(struct etcd_client *etcd);
// Asks the member: what it says, or null where that failed, and then the next one is asked next time. The question
// goes.
json_t *etcd_ask(struct etcd_client *etcd, const char *path, json_t *question);
// Says on standard error what each member answered that was no answer.
void etcd_print_errors(const struct etcd_client *etcd);
// Asks what is answered by lines without end, each of which `put` gets; a silence of some seconds ends it.
void etcd_watch(struct etcd_client *etcd, const char *path, json_t *question,
                size_t (*put)(char *bytes, size_t size, size_t count, void *context),
                int (*ends)(void *context, curl_off_t, curl_off_t, curl_off_t, curl_off_t), void *context);

// A moment in which a member that failed may come back.
void etcd_pause(void);

// Bytes as etcd has them in JSON, and back: null, or a number of <errno.h>, where that failed.
json_t *etcd_encode(const void *bytes, size_t length);
json_t *etcd_key(const char *key);
int etcd_decode(const char *text, struct bytes *out);
// A number as etcd has it in JSON, at a key; 0 where there is none.
uint64_t etcd_number(const json_t *from, const char *key);
#endif
