// The work of 'lsm_timing threads SECONDS READERS' over LevelDB, or over RocksDB if ROCKSDB is defined: two writers of batches of 100 random
// keys, the store's own merging threads, and readers that get random ones of the keys that are written, over one store in memory. It prints
// a line 'name count nanoseconds' of each figure. bench/threads_peers builds and runs it.
#ifdef ROCKSDB
#include <rocksdb/cache.h>
#include <rocksdb/db.h>
#include <rocksdb/env.h>
#include <rocksdb/options.h>
#include <rocksdb/table.h>
#include <rocksdb/write_batch.h>
namespace store = rocksdb;
#else
#include <leveldb/cache.h>
#include <leveldb/db.h>
#include <leveldb/env.h>
#include <leveldb/helpers/memenv.h>
#include <leveldb/write_batch.h>
namespace store = leveldb;
#endif
#include <atomic>
#include <chrono>
#include <cstdint>
#include <cstdio>
#include <cstdlib>
#include <string>
#include <thread>
#include <vector>

#include "peer.h"

namespace {

constexpr uint64_t kWriters = 2, kBatch = 100, kSpan = uint64_t{1} << 40;
using Clock = std::chrono::steady_clock;

void check(const store::Status& status) {
    if (!status.ok()) {
        std::fprintf(stderr, "%s\n", status.ToString().c_str());
        std::exit(1);
    }
}

store::Slice slice(std::string_view bytes) { return {bytes.data(), bytes.size()}; }

store::Options options() {
    store::Options of;
    of.env = store::NewMemEnv(store::Env::Default());
    of.create_if_missing = true;
    of.compression = store::kNoCompression;
    of.write_buffer_size = 8000000;
#ifdef ROCKSDB
    of.target_file_size_base = 2000000;
    of.max_bytes_for_level_base = 10485760;
    of.level_compaction_dynamic_level_bytes = false;
    of.max_background_jobs = 3;
    store::BlockBasedTableOptions table;
    table.block_cache = store::NewLRUCache(size_t{4} << 30);
    table.checksum = store::kNoChecksum;
    of.table_factory.reset(store::NewBlockBasedTableFactory(table));
#else
    of.max_file_size = 2000000;
    of.block_cache = store::NewLRUCache(size_t{4} << 30);
    of.max_open_files = 5000;
#endif
    return of;
}

uint64_t since(Clock::time_point start) {
    return std::chrono::duration_cast<std::chrono::nanoseconds>(Clock::now() - start).count();
}

}  // namespace

int main(int count, char** words) {
    if (count != 3) {
        std::fprintf(stderr, "usage: %s SECONDS READERS\n", words[0]);
        return 2;
    }
    const uint64_t seconds = std::strtoull(words[1], nullptr, 10), readers = std::strtoull(words[2], nullptr, 10);
    store::DB* db = nullptr;
    check(store::DB::Open(options(), "/store", &db));
    std::atomic<uint64_t> entries{0}, longest{0}, gets{0}, found{0}, read_time{0};
    std::atomic<bool> is_over{false};
    const auto start = Clock::now();
    auto write = [&](uint64_t index) {
        store::WriteOptions how;
#ifdef ROCKSDB
        how.disableWAL = true;
#endif
        for (uint64_t number = index; since(start) < seconds * 1000000000; number += kWriters) {
            store::WriteBatch batch;
            for (uint64_t at = number * kBatch; at < (number + 1) * kBatch; at++) batch.Put(slice(key_of(at)), slice(value_of(at)));
            const auto began = Clock::now();
            check(db->Write(how, &batch));
            const uint64_t took = since(began);
            for (uint64_t most = longest; took > most && !longest.compare_exchange_weak(most, took);) {
            }
            entries += kBatch;
        }
    };
    auto read = [&](uint64_t index) {
        std::string value;
        uint64_t made = 0, has = 0;
        const auto began = Clock::now();
        while (!is_over) {
            const uint64_t all = entries;
            const Key key = key_of(all == 0 ? 0 : random_below(all, index * kSpan + made));
            has += db->Get(store::ReadOptions(), slice(key), &value).ok();
            made++;
        }
        gets += made;
        found += has;
        read_time += since(began);
    };
    std::vector<std::thread> writing, reading;
    for (uint64_t index = 0; index < kWriters; index++) writing.emplace_back(write, index);
    for (uint64_t index = 0; index < readers; index++) reading.emplace_back(read, index);
    for (auto& it : writing) it.join();
    const uint64_t time = since(start);
    is_over = true;
    for (auto& it : reading) it.join();
    std::printf("threads_put %llu %llu\n", (unsigned long long)entries, (unsigned long long)time);
    std::printf("threads_pause 1 %llu\n", (unsigned long long)longest);
    std::printf("threads_get %llu %llu\n", (unsigned long long)gets, (unsigned long long)read_time);
    std::printf("threads_found %llu\n", (unsigned long long)found);
    std::fflush(stdout);
    std::_Exit(0);
}
