// RocksDB in memory, for memory_peer.cc: without its log, checksums, compression and filters.
#pragma once
#include <rocksdb/cache.h>
#include <rocksdb/db.h>
#include <rocksdb/env.h>
#include <rocksdb/metadata.h>
#include <rocksdb/options.h>
#include <rocksdb/table.h>
#include <rocksdb/version.h>
#include <rocksdb/write_batch.h>
#include <unistd.h>

#include <memory>
#include <string>
#include <vector>

#include "peer.h"

namespace store = rocksdb;

inline constexpr uint64_t OUTPUT_LEN = 2000000;

inline void ok(const rocksdb::Status &status) {
    if (!status.ok()) { fprintf(stderr, "%s\n", status.ToString().c_str()); exit(1); }
}

inline rocksdb::Slice slice(std::string_view bytes) { return {bytes.data(), bytes.size()}; }

inline rocksdb::ReadOptions without_checksums() {
    rocksdb::ReadOptions options;
    options.verify_checksums = false;
    return options;
}

inline rocksdb::WriteOptions without_log() {
    rocksdb::WriteOptions options;
    options.disableWAL = true;
    return options;
}

inline const rocksdb::ReadOptions READS = without_checksums();
inline const rocksdb::WriteOptions WRITES = without_log();

inline std::string version() { return "RocksDB " + rocksdb::GetRocksVersionAsString(); }

inline std::shared_ptr<rocksdb::TableFactory> tables() {
    rocksdb::BlockBasedTableOptions options;
    options.block_cache = rocksdb::NewLRUCache(size_t(4) << 30);
    options.checksum = rocksdb::kNoChecksum;
    options.filter_policy = nullptr;
    options.block_size = 4096;
    return std::shared_ptr<rocksdb::TableFactory>(rocksdb::NewBlockBasedTableFactory(options));
}

inline rocksdb::Options options_in_memory(size_t memtable) {
    rocksdb::Options options;
    options.env = rocksdb::NewMemEnv(rocksdb::Env::Default());
    options.create_if_missing = true;
    options.compression = rocksdb::kNoCompression;
    options.table_factory = tables();
    options.write_buffer_size = memtable;
    options.target_file_size_base = OUTPUT_LEN;
    options.max_bytes_for_level_base = 10485760;
    options.level_compaction_dynamic_level_bytes = false;
    options.max_background_jobs = 2;
    options.max_subcompactions = 1;
    options.max_open_files = -1;
    options.allow_concurrent_memtable_write = false;
    options.avoid_flush_during_shutdown = true;
    options.info_log_level = rocksdb::FATAL_LEVEL;
    options.stats_dump_period_sec = 0;
    options.stats_persist_period_sec = 0;
    return options;
}

inline std::unique_ptr<rocksdb::DB> opened(const rocksdb::Options &options) {
    rocksdb::DB *db;
    ok(rocksdb::DB::Open(options, "/store", &db));
    return std::unique_ptr<rocksdb::DB>(db);
}

// A store with a memtable of so many bytes.
inline std::unique_ptr<rocksdb::DB> opened_in_memory(size_t memtable) { return opened(options_in_memory(memtable)); }

inline bool is_at_rest(rocksdb::DB &db) {
    for (const char *what : {"num-running-flushes", "num-running-compactions", "mem-table-flush-pending", "compaction-pending"}) {
        uint64_t number = 0;
        if (!db.GetIntProperty(std::string("rocksdb.") + what, &number) || number != 0) return false;
    }
    return true;
}

// Waits until nothing is flushed or compacted.
inline void rest(rocksdb::DB &db) {
    while (!is_at_rest(db)) usleep(20000);
}

// Makes a table of what is in the memtable.
inline void flush(rocksdb::DB &db) { ok(db.Flush({})); }

// What a get's value comes to.
using Answer = rocksdb::PinnableSlice;

inline bool get(rocksdb::DB &db, const Key &key, Answer &answer) {
    answer.Reset();
    rocksdb::Status status = db.Get(READS, db.DefaultColumnFamily(), slice(key), &answer);
    if (!status.IsNotFound()) ok(status);
    return status.ok();
}

// The store for a merge: all that is put stays in the memtable, and nothing is compacted but when it is asked for.
inline std::unique_ptr<rocksdb::DB> opened_for_merge() {
    rocksdb::Options options = options_in_memory(size_t(1) << 30);
    options.disable_auto_compactions = true;
    return opened(options);
}

// Makes one table of level 0 of what is in the memtable.
inline void end_table(std::unique_ptr<rocksdb::DB> &db) { flush(*db); }

// Merges all tables of level 0 to level 1.
inline void merge(rocksdb::DB &db) {
    rocksdb::ColumnFamilyMetaData there;
    db.GetColumnFamilyMetaData(&there);
    std::vector<std::string> inputs;
    for (const auto &file : there.levels[0].files) inputs.push_back(file.name);
    rocksdb::CompactionOptions options;
    options.compression = rocksdb::kNoCompression;
    options.output_file_size_limit = OUTPUT_LEN;
    ok(db.CompactFiles(options, inputs, 1));
}
