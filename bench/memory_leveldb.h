// LevelDB in memory, for memory_peer.cc. Its log is in memory too, and can't be turned off.
#pragma once
#include <leveldb/env.h>
#include <leveldb/helpers/memenv.h>
#include <leveldb/write_batch.h>

#include "leveldb_peer.h"

namespace store = leveldb;

inline const leveldb::ReadOptions READS;
inline const leveldb::WriteOptions WRITES;

inline std::string version() { return "LevelDB " + std::to_string(leveldb::kMajorVersion) + "." + std::to_string(leveldb::kMinorVersion); }

// The store of the process, with a memtable of so many bytes.
inline std::unique_ptr<leveldb::DB> opened_in_memory(size_t memtable) {
    static leveldb::Env *memory = leveldb::NewMemEnv(leveldb::Env::Default());
    static leveldb::Cache *cache = leveldb::NewLRUCache(size_t(4) << 30);
    leveldb::Options options = options_without_cache();
    options.env = memory;
    options.block_cache = cache;
    options.write_buffer_size = memtable;
    return opened(options, "/store");
}

// Waits until nothing is compacted.
inline void rest(leveldb::DB &) { rest(100); }

// Makes a table of what is in the memtable. LevelDB does so before it compacts a range; there is nothing in this one, which is behind all keys.
inline void flush(leveldb::DB &db) {
    const std::string end(PREFIX_LEN + KEY_LEN + 1, '\xff');
    const leveldb::Slice behind(end);
    db.CompactRange(&behind, &behind);
}

// What a get's value comes to.
using Answer = std::string;

inline bool get(leveldb::DB &db, const Key &key, Answer &answer) {
    leveldb::Status status = db.Get(READS, slice(key), &answer);
    if (!status.IsNotFound()) ok(status);
    return status.ok();
}

// The store for a merge: all that is put stays in the memtable.
inline std::unique_ptr<leveldb::DB> opened_for_merge() { return opened_in_memory(size_t(1) << 30); }

// Makes one table of level 0 of what is in the memtable. An opening does so with what is in the log; a flush would choose a deeper level.
inline void end_table(std::unique_ptr<leveldb::DB> &db) {
    db.reset();
    db = opened_for_merge();
    rest(*db);
}

// Merges all tables of level 0 to level 1.
inline void merge(leveldb::DB &db) { db.CompactRange(nullptr, nullptr); }
