// The figures of lsm_timing in memory over LevelDB, or over RocksDB if ROCKSDB is defined. bench/peers builds and runs it. Its commands:
//     fill N BATCH     'fill': puts N entries in batches, until nothing is left to compact
//     get N M          'fill', 'get' and 'get_absent': M gets of random keys that are there, and of keys that are not
//     scan N K         'fill', 'scan' and 'scan_short': one scan over all, and K scans of 20 entries from random keys on
//     pauses N BATCH   'longest_write' and 'longest_write_wall': of a fill, the longest write of a batch
//     merge MB         'merge': the merge of two tables of level 0, MB megabytes of keys and values in all
//     flush            'flush': the flush of 61,538 entries
//     version          what store this is
// With '--keys prefixed' behind it all keys have 16 bytes in common before their own. Each figure has its two lines, as lsm_timing prints them.
#ifdef ROCKSDB
#include "memory_rocksdb.h"
#else
#include "memory_leveldb.h"
#endif
#include <algorithm>
#include <vector>

namespace {

constexpr size_t MEMTABLE = 8000000;
constexpr uint64_t BATCH = 100, LARGE_BATCH = 1000, SHORT_SCAN = 20, FLUSHED = 61538, MEGABYTE = 1000000;

using Database = std::unique_ptr<store::DB>;

// What a fill puts: the indices from 0 on, in batches.
struct Load {
    uint64_t entries, batch;
    KeyShape shape;
};

void put(store::WriteBatch &batch, uint64_t index, KeyShape shape) { batch.Put(slice(key_of(index, shape)), slice(value_of(index))); }

// The batch that begins with this index.
store::WriteBatch batch_from(const Load &load, uint64_t first) {
    store::WriteBatch batch;
    const uint64_t end = std::min(first + load.batch, load.entries);
    for (uint64_t index = first; index < end; index++) put(batch, index, load.shape);
    return batch;
}

void put_all(store::DB &db, const Load &load) {
    for (uint64_t first = 0; first < load.entries; first += load.batch) {
        store::WriteBatch batch = batch_from(load, first);
        ok(db.Write(WRITES, &batch));
    }
}

// Flushes, and waits until nothing is left to compact.
void settle(store::DB &db) {
    flush(db);
    rest(db);
}

Database filled(const Load &load) {
    Database db = opened_in_memory(MEMTABLE);
    Figure figure("fill");
    put_all(*db, load);
    settle(*db);
    figure.end(load.entries, 0);
    return db;
}

// Which keys are got: random ones of those that are there, or those that come after them and are not.
enum class Keys { present, absent };

uint64_t get_all(store::DB &db, const Load &load, Keys keys, uint64_t reads) {
    Answer answer;
    uint64_t sum = 0;
    for (uint64_t read = 0; read < reads; read++) {
        const uint64_t index = keys == Keys::present ? random_below(load.entries, read) : load.entries + read;
        const bool is_there = get(db, key_of(index, load.shape), answer);
        sum = is_there ? with_bytes(sum, {answer.data(), answer.size()}) : with_number(sum, 1);
    }
    return sum;
}

void time_get(store::DB &db, const char *name, const Load &load, Keys keys, uint64_t reads) {
    Figure figure(name);
    figure.end(reads, get_all(db, load, keys, reads));
}

// The first gets of keys that are there bring blocks to the cache, and are not timed.
void time_gets(const Load &load, uint64_t reads) {
    Database db = filled(load);
    get_all(*db, load, Keys::present, reads);
    time_get(*db, "get", load, Keys::present, reads);
    time_get(*db, "get_absent", load, Keys::absent, reads);
}

uint64_t with_slice(uint64_t sum, const store::Slice &bytes) { return with_bytes(sum, {bytes.data(), bytes.size()}); }

// What was read: how many entries, and their checksum.
struct Read {
    uint64_t count = 0, sum = 0;
};

// Reads at most so many entries from where the iterator stands.
void read_from(store::Iterator &it, uint64_t most, Read &read) {
    for (uint64_t number = 0; number < most && it.Valid(); number++, it.Next()) {
        read.sum = with_slice(with_slice(read.sum, it.key()), it.value());
        read.count++;
    }
    ok(it.status());
}

Read scan_whole(store::DB &db) {
    Read read;
    std::unique_ptr<store::Iterator> it(db.NewIterator(READS));
    it->SeekToFirst();
    read_from(*it, UINT64_MAX, read);
    return read;
}

// Reads some entries from each of so many random keys on, by a new iterator each.
Read scan_short(store::DB &db, const Load &load, uint64_t scans) {
    Read read;
    for (uint64_t scan = 0; scan < scans; scan++) {
        std::unique_ptr<store::Iterator> it(db.NewIterator(READS));
        it->Seek(slice(key_of(random_below(load.entries, scan), load.shape)));
        read_from(*it, SHORT_SCAN, read);
    }
    return read;
}

// The first scan brings all blocks to the cache, and is not timed.
void time_scans(const Load &load, uint64_t scans) {
    Database db = filled(load);
    scan_whole(*db);
    Figure whole("scan");
    Read read = scan_whole(*db);
    whole.end(read.count, read.sum);
    Figure some("scan_short");
    read = scan_short(*db, load, scans);
    some.end(scans, read.sum);
}

// The longest by some clock of what is timed.
struct Longest {
    clockid_t clock;
    uint64_t start = 0, time = 0;
    void begin() { start = nanoseconds(clock); }
    void end() { time = std::max(time, nanoseconds(clock) - start); }
};

// The writing thread's own time with a processor, whatever other threads do beside it, and the wall's.
void time_pauses(const Load &load) {
    Database db = opened_in_memory(MEMTABLE);
    Longest processor{CLOCK_THREAD_CPUTIME_ID}, wall{CLOCK_MONOTONIC};
    for (uint64_t first = 0; first < load.entries; first += load.batch) {
        store::WriteBatch batch = batch_from(load, first);
        wall.begin();
        processor.begin();
        ok(db->Write(WRITES, &batch));
        processor.end();
        wall.end();
    }
    settle(*db);
    print_figure("longest_write", 1, 0, processor.time);
    print_figure("longest_write_wall", 1, 0, wall.time);
}

// The indices below a count, in the order of their keys.
std::vector<uint64_t> sorted_indices(uint64_t count) {
    std::vector<uint64_t> indices(count);
    for (uint64_t index = 0; index < count; index++) indices[index] = index;
    std::sort(indices.begin(), indices.end(), [](uint64_t index, uint64_t other) { return mix(index) < mix(other); });
    return indices;
}

// Whether a table has an entry: every eighth is in both, and of the others a random half.
bool is_in_table(uint64_t index, uint64_t table) { return index % 8 == 0 || mix(~index) % 2 == table; }

// Puts the entries of a table, and returns how many there are.
uint64_t put_table(store::DB &db, const std::vector<uint64_t> &indices, uint64_t table, KeyShape shape) {
    store::WriteBatch batch;
    uint64_t count = 0;
    for (uint64_t index : indices) {
        if (!is_in_table(index, table)) continue;
        put(batch, index, shape);
        if (++count % LARGE_BATCH != 0) continue;
        ok(db.Write(WRITES, &batch));
        batch.Clear();
    }
    ok(db.Write(WRITES, &batch));
    return count;
}

void time_merge(uint64_t megabytes, KeyShape shape) {
    const uint64_t entry = std::string_view(key_of(0, shape)).size() + VALUE_LEN;
    const std::vector<uint64_t> indices = sorted_indices(megabytes * MEGABYTE / entry * 8 / 9);
    Database db = opened_for_merge();
    uint64_t count = 0;
    for (uint64_t table : {0, 1}) {
        count += put_table(*db, indices, table, shape);
        end_table(db);
    }
    Figure figure("merge");
    merge(*db);
    figure.end(count, 0);
}

// The memtable is so large that nothing is flushed before.
void time_flush(KeyShape shape) {
    Database db = opened_in_memory(8 * MEMTABLE);
    put_all(*db, {FLUSHED, LARGE_BATCH, shape});
    Figure figure("flush");
    flush(*db);
    figure.end(FLUSHED, 0);
}

// The number at a place among the words, or 0.
uint64_t number_at(const std::vector<std::string> &words, size_t place) {
    return place < words.size() ? strtoull(words[place].c_str(), nullptr, 10) : 0;
}

// Does what the words ask for, if they are a command.
bool run(const std::vector<std::string> &words, KeyShape shape) {
    const std::string command = words.empty() ? "" : words[0];
    const uint64_t first = number_at(words, 1), second = number_at(words, 2);
    if (command == "version" && words.size() == 1) puts(version().c_str());
    else if (command == "flush" && words.size() == 1) time_flush(shape);
    else if (command == "merge" && first > 0 && words.size() == 2) time_merge(first, shape);
    else if (first == 0 || second == 0 || words.size() != 3) return false;
    else if (command == "fill") filled({first, second, shape});
    else if (command == "get") time_gets({first, BATCH, shape}, second);
    else if (command == "scan") time_scans({first, BATCH, shape}, second);
    else if (command == "pauses") time_pauses({first, second, shape});
    else return false;
    return true;
}

}  // namespace

int main(int count, char **given) {
    std::vector<std::string> words(given + 1, given + count);
    const size_t size = words.size();
    const bool is_prefixed = size >= 2 && words[size - 2] == "--keys" && words[size - 1] == "prefixed";
    if (is_prefixed) words.resize(size - 2);
    if (run(words, is_prefixed ? KeyShape::prefixed : KeyShape::scattered)) return 0;
    fprintf(stderr, "usage: %s fill N BATCH | get N M | scan N K | pauses N BATCH | merge MB | flush | version [--keys prefixed]\n", given[0]);
    return 2;
}
