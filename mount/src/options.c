// Reads the command line, and prints the help.
//
// Invariant: options that exclude each other are refused here, with status 2, before anything is opened.
#include "options.h"
#include "memlimit.h"
#include <getopt.h>
#include <stdio.h>
#include <stdlib.h>
#include <string.h>
#include <unistd.h>

static const char help[] =
    "Mounts a file system in memory, whose calls are those of Doorvervain.\n"
    "\n"
    "  doorvervain-mount [OPTION..] MNT      mounts it on the directory MNT\n"
    "  doorvervain-mount --restore NAME MNT  makes the tree that is mounted on MNT that of its snapshot NAME\n"
    "  doorvervain-mount --diff NAME [TO] MNT\n"
    "                                        prints what changed from its snapshot NAME to TO, or to now: + added,\n"
    "                                        - removed, M changed; a directory that was added or removed is one line\n"
    "  doorvervain-mount --send NAME [TO] MNT\n"
    "                                        writes the difference of these trees to standard output\n"
    "  doorvervain-mount --receive MNT       reads a difference from standard input and applies it to the tree of MNT, if all\n"
    "                                        of its lines fit that. Its snapshots stay\n"
    "  doorvervain-mount --unmount MNT       unmounts it, and waits until its store or image is complete; the status is the\n"
    "                                        mount's\n"
    "  doorvervain-mount --status MNT [--json]\n"
    "                                        prints its files, memory, log, snapshots, and members of etcd\n"
    "  doorvervain-mount --dump-log DIR      prints the write-ahead logs of a store as lines of a script\n"
    "  doorvervain-mount --rescue NEW DIR    makes a new store in the directory NEW of what is whole of the store DIR, which\n"
    "                                        it only reads, and reports what is not; the status is 3 if something is not\n"
    "\n"
    "  --load FILE     begins with the tree whose image is in FILE\n"
    "  --image FILE    writes the image of the tree to FILE when it is unmounted, and its checksum to FILE.sum\n"
    "  --store DIR     keeps the tree in the directory DIR: what was synced survives the mount and a crash of the machine\n"
    "  --sync          syncs the store at each change\n"
    "  --log-size N    lets the log of the store, or of the replica, take N bytes, and twice those of its checkpoint,\n"
    "                  before another checkpoint is written (64M)\n"
    "  --replica LIST  is one of several mounts of a file system whose log is in etcd; LIST has its members, as\n"
    "                  127.0.0.1:2379,127.0.0.1:2479. Those of other machines take https, --cacert, and --cert or --user\n"
    "  --prefix P      lets the keys of that log begin with P (doorvervain)\n"
    "  --cacert FILE   trusts members that have a certificate of the authority in FILE\n"
    "  --cert FILE     authenticates to members by the certificate in FILE\n"
    "  --key FILE      has the key of that certificate\n"
    "  --user NAME     authenticates to members by the name of a user\n"
    "  --password-file FILE\n"
    "                  has that user's password in its first line\n"
    "  --size N        lets the tree take N bytes of memory, with K, M or G after N, and at least 16M; an eighth is kept\n"
    "                  for removals\n"
    "  --trace NAME    writes every call to NAME.in, as a script, and every reply to NAME.out, new files, for tests\n"
    "  --steps N       does N tree steps after every 16 changes, 1 to 1000 (4)\n"
    "  --busy-poll N   looks for the next request for N microseconds before it sleeps, if the last ones came that soon,\n"
    "                  0 to 1000 (30); 0 sleeps at once\n"
    "  --trust-attributes\n"
    "                  honours owners, set-user bits and devices of the tree, also those of a FILE that is loaded; for\n"
    "                  root alone\n"
    "  --nosuid        but not its set-user bits\n"
    "  --nodev         but not its devices\n"
    "  --allow-other   lets other users in, by the modes of files\n"
    "  --json          prints the status as one JSON object\n"
    "  --foreground    does not go into the background\n"
    "  --version       prints its release, its commit, and whether its library was proved\n"
    "  --help          prints this\n"
    "\n"
    "mkdir MNT/.snapshots/NAME takes a snapshot, and rmdir of that directory drops it. What is below it is read-only.\n"
    "No listing of MNT shows .snapshots. The tree lives in memory: what no store or image keeps is lost at unmount. An image\n"
    "has modes, owners, links and extended attributes too.\n";

void print_help(void) { fputs(help, stdout); }

void print_version(void) { printf("doorvervain-mount %s\n", doorvervain_build()); }

static const struct option known[] = {
    {"load", required_argument, NULL, 'l'},
    {"image", required_argument, NULL, 'i'},
    {"trace", required_argument, NULL, 'g'},
    {"steps", required_argument, NULL, 's'},
    {"restore", required_argument, NULL, 'r'},
    {"diff", required_argument, NULL, 'c'},
    {"send", required_argument, NULL, 'e'},
    {"receive", no_argument, NULL, 'x'},
    {"store", required_argument, NULL, 'd'},
    {"replica", required_argument, NULL, 'R'},
    {"prefix", required_argument, NULL, 'P'},
    {"cacert", required_argument, NULL, 'A'},
    {"cert", required_argument, NULL, 'C'},
    {"key", required_argument, NULL, 'K'},
    {"user", required_argument, NULL, 'U'},
    {"password-file", required_argument, NULL, 'W'},
    {"sync", no_argument, NULL, 'y'},
    {"log-size", required_argument, NULL, 'o'},
    {"size", required_argument, NULL, 'z'},
    {"busy-poll", required_argument, NULL, 'w'},
    {"unmount", no_argument, NULL, 'u'},
    {"status", no_argument, NULL, 'S'},
    {"json", no_argument, NULL, 'j'},
    {"dump-log", no_argument, NULL, 'n'},
    {"rescue", required_argument, NULL, 'q'},
    {"allow-other", no_argument, NULL, 'a'},
    {"foreground", no_argument, NULL, 'f'},
    {"trust-attributes", no_argument, NULL, 't'},
    {"nosuid", no_argument, NULL, 'N'},
    {"nodev", no_argument, NULL, 'D'},
    {"help", no_argument, NULL, 'h'},
    {"version", no_argument, NULL, 'v'},
    {NULL},
};

static int refuse(const char *text, const char *word) {
    fprintf(stderr, "doorvervain-mount: %s%s; see --help\n", text, word);
    return 2;
}

// A number of up to 1000.
static int read_number(const char *word, unsigned long least, const char *refusal, unsigned *out) {
    char *end;
    unsigned long number = strtoul(word, &end, 10);
    if (!*word || *end || *word == '-' || number < least || number > 1000) return refuse(refusal, word);
    *out = (unsigned)number;
    return 0;
}

static unsigned shift_of(char letter) {
    switch (letter) {
    case 'K': return 10;
    case 'M': return 20;
    case 'G': return 30;
    default: return 0;
    }
}

// A number of bytes, with K, M or G after it.
static int read_bytes(const char *word, uint64_t least, const char *refusal, uint64_t *out) {
    char *end;
    uint64_t size = strtoull(word, &end, 10);
    unsigned shift = shift_of(*end);
    bool is_number = *word >= '0' && *word <= '9' && !end[shift ? 1 : 0];
    if (!is_number || size > UINT64_MAX >> 1 >> shift || size << shift < least) return refuse(refusal, word);
    *out = size << shift;
    return 0;
}

// Where an option of a replica goes; null: it is none.
static const char **replica_option(int letter, struct etcd_options *out) {
    switch (letter) {
    case 'R': return &out->members;
    case 'P': return &out->prefix;
    case 'A': return &out->cacert;
    case 'C': return &out->cert;
    case 'K': return &out->key;
    case 'U': return &out->user;
    case 'W': return &out->password_file;
    default: return NULL;
    }
}

static int read_option(int letter, struct options *out) {
    const char **of_replica = replica_option(letter, &out->open.replica);
    if (of_replica) {
        *of_replica = optarg;
        return 0;
    }
    switch (letter) {
    case 'l': out->open.image = optarg; return 0;
    case 'i': out->image = optarg; return 0;
    case 'd': out->open.store = optarg; return 0;
    case 'o': return read_bytes(optarg, 1, "--log-size takes 1 or more, not ", &out->open.log_size);
    case 'y': out->open.syncs_each = true; return 0;
    case 'g': out->open.trace = optarg; return 0;
    case 's': return read_number(optarg, 1, "--steps takes 1 to 1000, not ", &out->open.steps);
    case 'w': return read_number(optarg, 0, "--busy-poll takes 0 to 1000, not ", &out->busy_poll);
    case 'r': out->restore = optarg; return 0;
    case 'c': out->diff_from = optarg; return 0;
    case 'e': out->send_from = optarg; return 0;
    case 'x': out->receives = true; return 0;
    case 'z': return read_bytes(optarg, SMALLEST_SIZE, "--size takes 16M or more, not ", &out->size);
    case 'u': out->unmounts = true; return 0;
    case 'S': out->prints_status = true; return 0;
    case 'j': out->as_json = true; return 0;
    case 'n': out->dumps_log = true; return 0;
    case 'q': out->rescue = optarg; return 0;
    case 'a': out->allows_other = true; return 0;
    case 't': out->trusts_attributes = true; return 0;
    case 'N': out->no_suid = true; return 0;
    case 'D': out->no_dev = true; return 0;
    case 'f': out->in_foreground = true; return 0;
    case 'h': out->prints_help = true; return 0;
    case 'v': out->prints_version = true; return 0;
    default: return 2;
    }
}

// What does not go together.
static int try_replica(const struct options *options) {
    const struct open_options *open_options = &options->open;
    const struct etcd_options *replica = &open_options->replica;
    bool has_credentials = replica->cacert || replica->cert || replica->key || replica->user || replica->password_file;
    if (!replica->members) return replica->prefix || has_credentials ? refuse("that option is for --replica", "") : 0;
    if (open_options->store || open_options->image || open_options->trace)
        return refuse("--replica does not go with --store, --load or --trace", "");
    if (!replica->cert != !replica->key) return refuse("--cert goes with --key", "");
    return !replica->user != !replica->password_file ? refuse("--user goes with --password-file", "") : 0;
}

int read_options(int count, char **words, struct options *out) {
    int letter, err = 0;
    *out = (struct options){.busy_poll = 30, .open.steps = 4, .open.log_size = (uint64_t)64 << 20};
    while (!err && (letter = getopt_long(count, words, "h", known, NULL)) != -1) err = read_option(letter, out);
    if (err || out->prints_help || out->prints_version) return err;
    if ((out->diff_from || out->send_from) && optind + 2 == count) out->until = words[optind++];
    if (optind + 1 != count)
        return refuse(out->dumps_log || out->rescue ? "one folder of a store is wanted" : "one folder to mount on is wanted", "");
    if (out->open.store && (out->open.image || out->image))
        return refuse("--store does not go with --load or --image", "");
    if (out->open.syncs_each && !out->open.store) return refuse("--sync is for a --store", "");
    if (out->as_json && !out->prints_status) return refuse("--json is for --status", "");
    if (out->trusts_attributes && geteuid()) return refuse("--trust-attributes is for root", "");
    if (try_replica(out)) return 2;
    if (!out->open.replica.prefix) out->open.replica.prefix = "doorvervain";
    out->mount_point = words[optind];
    return 0;
}
