// Asks the archive for the paths of attribute records, encodes records and decodes them. It prints what is returned; examples/run
// compares that with records.expected, which was computed independently, and the kinds there with those of the header.
//
// It calls the symbols of the archive, with other numbers in their results. It is linked with --wrap=malloc and --wrap=realloc, so
// that it can make allocations fail.
#include "doorvervain.h"
#include "refused_memory.h"
#include <stdio.h>
#include <string.h>

enum { CAPACITY = 512, OLD = 99 };

// Lets allocations succeed again, and returns its argument.
static uint8_t without_memory(uint8_t answer) {
    refused_request = 0;
    return answer;
}

static const uint8_t *bytes_of(const char *text) { return (const uint8_t *)text; }

// Prints bytes, those that are not printable as two digits.
static void say_bytes(const uint8_t *bytes, size_t count) {
    for (size_t i = 0; i < count; i++) {
        if (bytes[i] == '\n' || (bytes[i] >= ' ' && bytes[i] <= '~')) putchar(bytes[i]);
        else printf("\\%02x", bytes[i]);
    }
}

// ---- paths of attribute records

static void say_place(const char *what, uint8_t number, const uint8_t *out, size_t size) {
    printf("  %s: %d, %zu bytes ", what, number, size);
    if (!number && size <= CAPACITY) say_bytes(out, size);
    printf("\n");
}

static void say_places(const char *path) {
    uint8_t out[CAPACITY];
    size_t size = OLD;
    say_bytes(bytes_of(path), strlen(path));
    printf("\n");
    uint8_t number = doorvervain_raw_attr_dir(bytes_of(path), strlen(path), out, CAPACITY, &size);
    say_place("record directory", number, out, size);
    size = OLD;
    number = doorvervain_raw_attr_path(bytes_of(path), strlen(path), out, CAPACITY, &size);
    say_place("record", number, out, size);
}

// A path with one name of the given number of bytes.
static const char *long_path(size_t count) {
    static char path[CAPACITY];
    memset(path, 0, CAPACITY);
    memset(path, 'n', count + 1);
    path[0] = '/';
    return path;
}

static void say_size_alone(const char *path) {
    uint8_t out[1] = {OLD};
    size_t size = OLD;
    uint8_t number = doorvervain_raw_attr_path(bytes_of(path), strlen(path), out, 0, &size);
    printf("without capacity: %d, %zu bytes, and %d is left\n", number, size, out[0]);
}

static void say_without_memory(void) {
    uint8_t out[CAPACITY];
    size_t size = OLD;
    const char *path = long_path(200);
    refused_request = ALL_REQUESTS;
    uint8_t number = without_memory(doorvervain_raw_attr_path(bytes_of(path), strlen(path), out, CAPACITY, &size));
    printf("without memory: %d, %zu bytes\n", number, size);
}

// ---- the content of attribute records

static void say_attributes(const struct doorvervain_attributes *a) {
    printf("  kind %d, mode %o, user %u, group %u, names %llu, link %llu, device %llu, modified %llu, held %llu, %d\n", a->kind,
        a->mode, a->user, a->group, (unsigned long long)a->names, (unsigned long long)a->link, (unsigned long long)a->device,
        (unsigned long long)a->modified, (unsigned long long)a->held, a->has_modified);
}

static void fill(struct doorvervain_attributes *a) { memset(a, OLD, sizeof *a); }

static void read_again(const uint8_t *text, size_t length) {
    struct doorvervain_attributes decoded;
    uint8_t extended[CAPACITY];
    size_t size = OLD;
    fill(&decoded);
    uint8_t number = doorvervain_raw_attr_decode(text, length, &decoded, extended, CAPACITY, &size);
    printf("  read: %d, %zu bytes ", number, size);
    if (!number && size <= CAPACITY) say_bytes(extended, size);
    printf("\n");
    say_attributes(&decoded);
}

static void say_record(const char *what, const struct doorvervain_attributes *a, const char *extended, size_t length) {
    uint8_t text[CAPACITY];
    size_t size = OLD;
    uint8_t number = doorvervain_raw_attr_encode(a, bytes_of(extended), length, text, CAPACITY, &size);
    printf("%s: %d, %zu bytes\n", what, number, size);
    if (number || size > CAPACITY) return;
    say_bytes(text, size);
    read_again(text, size);
}

static void say_records(void) {
    static const char extended[] = "user.a b\0\0\0\0\0user.comment\0\3\0\0\0hi\n";
    struct doorvervain_attributes a = {0};
    a.mode = 0600;
    a.kind = DOORVERVAIN_FILE;
    a.names = 1;
    a.link = a.device = a.modified = a.held = 5;
    say_record("a file", &a, "", 0);
    a.mode = 0660;
    a.group = 6;
    a.kind = DOORVERVAIN_BLOCK_DEVICE;
    a.device = 2049;
    a.modified = 1700000000000000000;
    a.held = 1700000000123456789;
    a.has_modified = 3;
    say_record("a block device", &a, "", 0);
    a.mode = 01777;
    a.user = 1000;
    a.group = 100;
    a.kind = DOORVERVAIN_DIRECTORY;
    a.has_modified = 0;
    say_record("a directory", &a, extended, sizeof extended - 1);
    a.mode = 010000;
    say_record("a mode of thirteen bits", &a, "", 0);
    a.mode = 0;
    say_record("a name that is not ended", &a, "user.a", 6);
    a.kind = 9;
    say_record("no kind", &a, "", 0);
}

// Prints a kind of the header, and whether it is the one of a record with that word.
static void read_kind(const char *name, uint8_t header, const char *word) {
    struct doorvervain_attributes decoded;
    char text[CAPACITY];
    size_t size = OLD;
    int length = snprintf(text, sizeof text, "doorvervain record 1\nkind %s\nmode 0000\nuser 0\ngroup 0\nnames 1\n", word);
    fill(&decoded);
    uint8_t number = doorvervain_raw_attr_decode(bytes_of(text), (size_t)length, &decoded, (uint8_t *)text, 0, &size);
    printf("DOORVERVAIN_%s = %d", name, header);
    if (number || decoded.kind != header) printf(", and %d was answered, by %d", decoded.kind, number);
    printf("\n");
}

static void read_kinds(void) {
    read_kind("SYMBOLIC_LINK", DOORVERVAIN_SYMBOLIC_LINK, "symbolic-link");
    read_kind("FIFO", DOORVERVAIN_FIFO, "fifo");
    read_kind("SOCKET", DOORVERVAIN_SOCKET, "socket");
    read_kind("CHARACTER_DEVICE", DOORVERVAIN_CHARACTER_DEVICE, "character-device 1");
    read_kind("BLOCK_DEVICE", DOORVERVAIN_BLOCK_DEVICE, "block-device 1");
    read_kind("OTHER_NAME", DOORVERVAIN_OTHER_NAME, "name-of 1");
}

static void say_null(void) {
    struct doorvervain_attributes decoded;
    size_t size = OLD;
    fill(&decoded);
    uint8_t number = doorvervain_attr_decode(NULL, 5, &decoded, NULL, 0, &size);
    printf("a null text: %d, %zu bytes\n", number, size);
    say_attributes(&decoded);
}

int main(void) {
    static const char three_digits[] = "doorvervain record 1\nkind file\nmode 600\nuser 0\ngroup 0\nnames 1\n";
    say_places("/");
    say_places("/etc/passwd");
    say_places("/\1a/b");
    say_places("/.doorvervain/tree");
    say_places("etc");
    say_places(long_path(256));
    say_size_alone("/etc/passwd");
    say_without_memory();
    say_records();
    read_again(bytes_of(three_digits), strlen(three_digits));
    read_kinds();
    say_null();
    return 0;
}
