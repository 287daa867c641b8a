// What the programs over LevelDB share: its options, without compression and with no filters, a store in a folder, and the rest of its thread.
#pragma once
#include <leveldb/cache.h>
#include <leveldb/db.h>
#include <unistd.h>

#include <memory>
#include <string>

#include "peer.h"

inline void ok(const leveldb::Status &status) {
    if (!status.ok()) { fprintf(stderr, "%s\n", status.ToString().c_str()); exit(1); }
}

inline leveldb::Slice slice(std::string_view bytes) { return {bytes.data(), bytes.size()}; }

inline leveldb::Options options_without_cache() {
    leveldb::Options options;
    options.create_if_missing = true;
    options.compression = leveldb::kNoCompression;
    options.write_buffer_size = 8000000;
    options.max_file_size = 2000000;
    options.max_open_files = 5000;
    return options;
}

inline std::unique_ptr<leveldb::DB> opened(const leveldb::Options &options, const char *path) {
    leveldb::DB *db;
    ok(leveldb::DB::Open(options, path, &db));
    return std::unique_ptr<leveldb::DB>(db);
}

// The store in a folder, which is made if there is none.
inline std::unique_ptr<leveldb::DB> opened(const char *path) {
    leveldb::Options options = options_without_cache();
    options.block_cache = leveldb::NewLRUCache(size_t(4) << 30);
    return opened(options, path);
}

// Waits until its thread compacts nothing: until the process takes less than a twentieth of a processor for so long.
inline void rest(uint64_t milliseconds) {
    for (;;) {
        uint64_t before = nanoseconds(CLOCK_PROCESS_CPUTIME_ID);
        usleep(milliseconds * 1000);
        if (nanoseconds(CLOCK_PROCESS_CPUTIME_ID) - before < milliseconds * 50000) return;
    }
}
