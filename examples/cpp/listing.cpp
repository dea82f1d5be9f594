// A program in C++ over the library, without a cast. It prints a directory of a frozen tree while the volume changes, and reads a file
// of more bytes than one call of the archive returns.
#include "doorvervain.h"
#include <iostream>
#include <string>
#include <string_view>
#include <system_error>
#include <vector>

// Throws the error of a call.
static void check(uint8_t number) {
    if (number) throw std::system_error(doorvervain_errno(number), std::generic_category(), doorvervain_strerror(number));
}

// A volume that closes itself.
class Volume {
    struct doorvervain fs {};

public:
    Volume() { check(doorvervain_open(&fs, DOORVERVAIN_FANOUT, DOORVERVAIN_PENDING, DOORVERVAIN_LEAF)); }
    ~Volume() { doorvervain_close(&fs); }
    Volume(const Volume &) = delete;
    Volume &operator=(const Volume &) = delete;

    struct doorvervain *get() { return &fs; }
    const struct doorvervain *get() const { return &fs; }

    void create(std::string_view path) { check(doorvervain_create(get(), path.data(), path.size(), 0)); }
    void write(std::string_view path, uint64_t offset, std::string_view bytes) {
        check(doorvervain_write(get(), path.data(), path.size(), offset, bytes.data(), bytes.size(), 0));
    }
    std::string read(std::string_view path) const {
        uint8_t kind;
        uint64_t size, modified;
        check(doorvervain_stat(get(), path.data(), path.size(), &kind, &size, &modified));
        std::string bytes(size, '?');
        size_t got;
        check(doorvervain_read(get(), path.data(), path.size(), 0, bytes.data(), bytes.size(), &got));
        bytes.resize(got);
        return bytes;
    }
};

static void print(struct doorvervain_list *list) {
    struct doorvervain_entry entry;
    while (!doorvervain_list_next(list, &entry))
        std::cout << (entry.kind == DOORVERVAIN_DIRECTORY ? "directory " : "file ") << std::string_view(entry.name, entry.length) << "\n";
    uint8_t number = doorvervain_list_next(list, &entry);
    std::cout << "then " << doorvervain_strerror(number) << ", and the entry is " << (entry.name ? "left" : "empty") << "\n";
}

// The entries of a list, and the bytes of their names.
static void count(struct doorvervain_list *list) {
    struct doorvervain_entry entry;
    size_t entries = 0, bytes = 0;
    for (; !doorvervain_list_next(list, &entry); entries++) bytes += entry.length;
    std::cout << entries << " entries with " << bytes << " bytes of names\n";
    doorvervain_list_end(list);
}

int main() {
    Volume volume;
    const std::string_view directory = "/docs";
    check(doorvervain_mkdir(volume.get(), directory.data(), directory.size(), 0));
    check(doorvervain_mkdir(volume.get(), "/docs/old", 9, 0));
    for (std::string_view name : {"/docs/b", "/docs/a", "/docs/c"}) volume.create(name);

    struct doorvervain_frozen tree;
    struct doorvervain_list live, frozen, empty, none;
    check(doorvervain_freeze(volume.get(), &tree));
    check(doorvervain_list_begin(&live, volume.get(), directory.data(), directory.size()));
    check(doorvervain_unlink(volume.get(), "/docs/b", 7, 0));
    check(doorvervain_list_begin(&empty, volume.get(), "/docs/old", 9));
    check(doorvervain_frozen_list_begin(&frozen, &tree, directory.data(), directory.size()));
    std::cout << "a list that began before a file was removed:\n";
    print(&live);
    std::cout << "a list of the frozen tree:\n";
    print(&frozen);
    std::cout << "a list of an empty directory:\n";
    print(&empty);
    std::cout << "no such directory: " << doorvervain_strerror(doorvervain_list_begin(&none, volume.get(), "/no", 3)) << "\n";
    std::cout << "a file: " << doorvervain_strerror(doorvervain_list_begin(&none, volume.get(), "/docs/a", 7)) << "\n";
    std::cout << "next of a closed list: " << doorvervain_strerror(doorvervain_list_next(&none, nullptr)) << ", ";
    struct doorvervain_entry entry;
    std::cout << doorvervain_strerror(doorvervain_list_next(&none, &entry)) << "\n";
    doorvervain_list_end(&live);
    doorvervain_list_end(&live);
    doorvervain_list_end(&frozen);
    doorvervain_list_end(&empty);
    doorvervain_frozen_close(&tree);

    // More than a list has room for at first.
    for (int i = 1000; i < 3000; i++) volume.create("/docs/old/" + std::to_string(i));
    check(doorvervain_freeze(volume.get(), &tree));
    check(doorvervain_list_begin(&live, volume.get(), "/docs/old", 9));
    check(doorvervain_frozen_list_begin(&frozen, &tree, "/docs/old", 9));
    count(&live);
    count(&frozen);
    doorvervain_frozen_close(&tree);

    // Three pieces and a part of one more, each byte by its place.
    std::string bytes(3 * 1048576 + 5, '\0');
    for (size_t i = 0; i < bytes.size(); i++) bytes[i] = static_cast<char>('a' + i / 4099 % 26);
    volume.write("/docs/a", 0, bytes);
    std::cout << "a file of " << bytes.size() << " bytes is read in one call: " << (volume.read("/docs/a") == bytes ? "yes" : "no") << "\n";
    size_t got;
    std::vector<char> buffer(bytes.size() + 9, '#');
    check(doorvervain_read(volume.get(), "/docs/a", 7, 1, buffer.data(), buffer.size(), &got));
    std::cout << "past its end: " << got << " bytes, then " << buffer[got] << "\n";
    check(doorvervain_read(volume.get(), "/docs/a", 7, 0, buffer.data(), 2 * 1048576, &got));
    std::cout << "two whole pieces: " << got << " bytes\n";
    check(doorvervain_read(volume.get(), "/docs/a", 7, UINT64_MAX, buffer.data(), buffer.size(), &got));
    std::cout << "at the last offset: " << got << " bytes\n";
    return 0;
}
