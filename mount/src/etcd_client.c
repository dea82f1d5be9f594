// Requests to the members of etcd, by HTTP and JSON (libcurl, jansson).
//
// Invariant: no request is sent to a member of another machine except by https with a verified certificate. After a
// failure the next member is asked, and `last_error` keeps what each of them answered.
#include "etcd_client.h"
#include <errno.h>
#include <openssl/evp.h>
#include <stdio.h>
#include <stdlib.h>
#include <string.h>
#include <time.h>

enum { SECONDS_TO_CONNECT = 2, SECONDS_OF_A_QUESTION = 3, SECONDS_OF_SILENCE = 3, LARGEST_PASSWORD = 4096 };
enum { NANOSECONDS_BETWEEN = 100000000 };

static int refuse(const char *what, const char *which) {
    fprintf(stderr, "doorvervain-mount: --replica: %s%s\n", what, which);
    return EINVAL;
}

// ---- the members

static bool begins(const char *text, const char *with) { return !strncmp(text, with, strlen(with)); }

// Whether the host is this machine, by its number or as `localhost`.
static bool is_loopback(const char *url) {
    static const char *const known[] = {"127.", "localhost:", "[::1]:"};
    const char *host = strstr(url, "://") + 3;
    size_t digits = strspn(host, "0123456789.");
    if (begins(host, known[0])) return host[digits] == ':' || !host[digits];
    return begins(host, known[1]) || begins(host, known[2]);
}

// Over a network a member tells who it is, and this mount does.
static int may_speak(const struct etcd_options *options, const char *url) {
    bool is_authenticated = options->cacert && (options->cert || options->user);
    if (strpbrk(strstr(url, "://") + 3, "@/?#")) return refuse("no member: ", url);
    if (is_loopback(url) || (begins(url, "https://") && is_authenticated)) return 0;
    return refuse("a member that is not on this machine takes https, --cacert, and --cert or --user: ", url);
}

static int add_member(struct members *members, const char *name) {
    size_t size = strlen(name) + sizeof "https://";
    char *url = malloc(size);
    if (!url) return ENOMEM;
    bool is_whole = begins(name, "http://") || begins(name, "https://");
    snprintf(url, size, "%s%s", is_whole ? "" : members->options->cacert ? "https://" : "http://", name);
    members->urls[members->count++] = url;
    return may_speak(members->options, url);
}

int members_read(const struct etcd_options *options, struct members *out) {
    char *names = strdup(options->members), *rest = names;
    int err = names ? 0 : ENOMEM;
    *out = (struct members){.options = options};
    for (char *name; !err && (name = strsep(&rest, ","));)
        err = *name && out->count < MOST_MEMBERS ? add_member(out, name)
                                                 : refuse("no list of members: ", options->members);
    free(names);
    return err;
}

void members_free(struct members *members) {
    while (members->count) free(members->urls[--members->count]);
}

// ---- bytes and numbers

json_t *etcd_encode(const void *bytes, size_t length) {
    char *text = malloc(length / 3 * 4 + 8);
    if (!text) return NULL;
    EVP_EncodeBlock((unsigned char *)text, bytes, (int)length);
    json_t *coded = json_string(text);
    free(text);
    return coded;
}

json_t *etcd_key(const char *key) { return etcd_encode(key, strlen(key)); }

int etcd_decode(const char *text, struct bytes *out) {
    size_t length = strlen(text), less = 0;
    if (bytes_reserve(out, length / 4 * 3 + 4)) return ENOMEM;
    while (less < 2 && less < length && text[length - less - 1] == '=') less++;
    int count = EVP_DecodeBlock((unsigned char *)out->at + out->length, (const unsigned char *)text, (int)length);
    if (count < (int)less) return EBADMSG;
    out->length += (size_t)count - less;
    return 0;
}

uint64_t etcd_number(const json_t *from, const char *key) {
    const char *text = json_string_value(json_object_get(from, key));
    return text ? strtoull(text, NULL, 10) : 0;
}

// ---- a question

void etcd_pause(void) { nanosleep(&(struct timespec){.tv_nsec = NANOSECONDS_BETWEEN}, NULL); }

int etcd_open(struct etcd_client *etcd, const struct members *members, size_t first) {
    *etcd = (struct etcd_client){.members = members, .member = first % members->count, .curl = curl_easy_init()};
    return etcd->curl ? 0 : ENOMEM;
}

static void drop_token(struct etcd_client *etcd) {
    free(etcd->token);
    etcd->token = NULL;
}

void etcd_close(struct etcd_client *etcd) {
    drop_token(etcd);
    curl_slist_free_all(etcd->headers);
    bytes_free(&etcd->response);
    if (etcd->curl) curl_easy_cleanup(etcd->curl);
    etcd->curl = NULL;
}

static size_t append_response(char *bytes, size_t size, size_t count, void *context) {
    return bytes_append(context, bytes, size * count) ? 0 : size * count;
}

static void set_headers(struct etcd_client *etcd) {
    char head[LARGEST_PASSWORD];
    curl_slist_free_all(etcd->headers);
    etcd->headers = curl_slist_append(NULL, "Content-Type: application/json");
    etcd->headers = curl_slist_append(etcd->headers, "Expect:");
    if (!etcd->token) return;
    snprintf(head, sizeof head, "Authorization: %s", etcd->token);
    etcd->headers = curl_slist_append(etcd->headers, head);
}

// The authority that is named is the only one: libcurl would add those of a directory of the system's.
static void set_trust(struct etcd_client *etcd) {
    const struct etcd_options *options = etcd->members->options;
    if (options->cacert) curl_easy_setopt(etcd->curl, CURLOPT_CAINFO, options->cacert);
    if (options->cacert) curl_easy_setopt(etcd->curl, CURLOPT_CAPATH, NULL);
    if (options->cert) curl_easy_setopt(etcd->curl, CURLOPT_SSLCERT, options->cert);
    if (options->key) curl_easy_setopt(etcd->curl, CURLOPT_SSLKEY, options->key);
}

// All of a question but who gets the answer.
static void set_question(struct etcd_client *etcd, const char *path, const char *text) {
    char url[1024];
    snprintf(url, sizeof url, "%s%s", etcd->members->urls[etcd->member], path);
    curl_easy_reset(etcd->curl);
    set_headers(etcd);
    set_trust(etcd);
    curl_easy_setopt(etcd->curl, CURLOPT_URL, url);
    curl_easy_setopt(etcd->curl, CURLOPT_PROTOCOLS_STR, "http,https");
    curl_easy_setopt(etcd->curl, CURLOPT_PROXY, "");
    curl_easy_setopt(etcd->curl, CURLOPT_HTTPHEADER, etcd->headers);
    curl_easy_setopt(etcd->curl, CURLOPT_POSTFIELDS, text);
    curl_easy_setopt(etcd->curl, CURLOPT_POSTFIELDSIZE_LARGE, (curl_off_t)strlen(text));
    curl_easy_setopt(etcd->curl, CURLOPT_NOSIGNAL, 1L);
    curl_easy_setopt(etcd->curl, CURLOPT_TCP_NODELAY, 1L);
    curl_easy_setopt(etcd->curl, CURLOPT_CONNECTTIMEOUT, (long)SECONDS_TO_CONNECT);
}

static void next_member(struct etcd_client *etcd) {
    etcd->member = (etcd->member + 1) % etcd->members->count;
    drop_token(etcd);
}

static void note_error(struct etcd_client *etcd, const char *what) {
    char *last_error = etcd->last_error[etcd->member];
    snprintf(last_error, MAX_ERROR_TEXT, "%s", what);
    last_error[strcspn(last_error, "\n")] = 0;
}

// What a question to the member came to.
static void note_outcome(struct etcd_client *etcd, CURLcode code) {
    char text[MAX_ERROR_TEXT];
    long status = 0;
    curl_easy_getinfo(etcd->curl, CURLINFO_RESPONSE_CODE, &status);
    int length = etcd->response.length < MAX_ERROR_TEXT ? (int)etcd->response.length : MAX_ERROR_TEXT;
    snprintf(text, sizeof text, "%ld %.*s", status, length, length ? etcd->response.at : "");
    note_error(etcd, code == CURLE_OK ? text : curl_easy_strerror(code));
}

void etcd_print_errors(const struct etcd_client *etcd) {
    for (size_t i = 0; etcd->members && i < etcd->members->count; i++)
        if (etcd->last_error[i][0])
            fprintf(stderr, "doorvervain-mount: --replica: %s: %s\n", etcd->members->urls[i], etcd->last_error[i]);
}

static json_t *ask_once(struct etcd_client *etcd, const char *path, const char *text) {
    json_t *answer = NULL;
    long status = 0;
    set_question(etcd, path, text);
    etcd->response.length = 0;
    curl_easy_setopt(etcd->curl, CURLOPT_WRITEFUNCTION, append_response);
    curl_easy_setopt(etcd->curl, CURLOPT_WRITEDATA, &etcd->response);
    curl_easy_setopt(etcd->curl, CURLOPT_TIMEOUT, (long)SECONDS_OF_A_QUESTION);
    CURLcode code = curl_easy_perform(etcd->curl);
    curl_easy_getinfo(etcd->curl, CURLINFO_RESPONSE_CODE, &status);
    if (code == CURLE_OK && status == 200) answer = json_loadb(etcd->response.at, etcd->response.length, 0, NULL);
    if (!answer) note_outcome(etcd, code);
    return answer;
}

// The first line of the file that has the password.
static int read_password(const char *name, char out[LARGEST_PASSWORD]) {
    FILE *file = fopen(name, "re");
    bool is_read = file && fgets(out, LARGEST_PASSWORD, file);
    if (file) fclose(file);
    if (is_read) out[strcspn(out, "\n")] = 0;
    return is_read ? 0 : EIO;
}

// A user's questions have a token, which the member gives for the password.
static int find_token(struct etcd_client *etcd) {
    const struct etcd_options *options = etcd->members->options;
    char password[LARGEST_PASSWORD];
    if (!options->user || etcd->token) return 0;
    if (read_password(options->password_file, password)) {
        note_error(etcd, "the password cannot be read");
        return EIO;
    }
    json_t *question = json_pack("{s:s, s:s}", "name", options->user, "password", password);
    char *text = json_dumps(question, JSON_COMPACT);
    json_t *answer = text ? ask_once(etcd, "/v3/auth/authenticate", text) : NULL;
    const char *token = json_string_value(json_object_get(answer, "token"));
    etcd->token = token ? strdup(token) : NULL;
    explicit_bzero(password, sizeof password);
    if (text) explicit_bzero(text, strlen(text));
    free(text);
    json_decref(question);
    json_decref(answer);
    return etcd->token ? 0 : EACCES;
}

json_t *etcd_ask(struct etcd_client *etcd, const char *path, json_t *question) {
    char *text = question ? json_dumps(question, JSON_COMPACT) : NULL;
    json_t *answer = text && !find_token(etcd) ? ask_once(etcd, path, text) : NULL;
    free(text);
    json_decref(question);
    if (!answer) next_member(etcd);
    return answer;
}

void etcd_watch(struct etcd_client *etcd, const char *path, json_t *question,
                size_t (*put)(char *bytes, size_t size, size_t count, void *context),
                int (*ends)(void *context, curl_off_t, curl_off_t, curl_off_t, curl_off_t), void *context) {
    char *text = question ? json_dumps(question, JSON_COMPACT) : NULL;
    json_decref(question);
    if (text && !find_token(etcd)) {
        set_question(etcd, path, text);
        curl_easy_setopt(etcd->curl, CURLOPT_WRITEFUNCTION, put);
        curl_easy_setopt(etcd->curl, CURLOPT_WRITEDATA, context);
        curl_easy_setopt(etcd->curl, CURLOPT_NOPROGRESS, 0L);
        curl_easy_setopt(etcd->curl, CURLOPT_XFERINFOFUNCTION, ends);
        curl_easy_setopt(etcd->curl, CURLOPT_XFERINFODATA, context);
        curl_easy_setopt(etcd->curl, CURLOPT_LOW_SPEED_LIMIT, 1L);
        curl_easy_setopt(etcd->curl, CURLOPT_LOW_SPEED_TIME, (long)SECONDS_OF_SILENCE);
        etcd->response.length = 0;
        note_outcome(etcd, curl_easy_perform(etcd->curl));
    }
    free(text);
    next_member(etcd);
}
