// The work of 'lsm_timing durable N M' over LevelDB, in the folder that is named: a fill without compression, cache or filters beside the
// defaults, its opening, and gets. Its log is written and not synced but for the last batch, so that all is durable at the end.
#include <leveldb/write_batch.h>

#include "leveldb_peer.h"

static const uint64_t BATCH = 100;

static void fill(leveldb::DB &db, uint64_t entries) {
    for (uint64_t index = 0; index < entries;) {
        leveldb::WriteBatch batch;
        for (uint64_t n = 0; n < BATCH && index < entries; n++, index++) batch.Put(slice(key_of(index)), slice(value_of(index)));
        leveldb::WriteOptions options;
        options.sync = index == entries;
        ok(db.Write(options, &batch));
    }
    rest(20);
}

int main(int count, char **words) {
    if (count != 4) { fprintf(stderr, "usage: durable_peer FOLDER ENTRIES READS\n"); return 2; }
    uint64_t entries = strtoull(words[2], nullptr, 10), reads = strtoull(words[3], nullptr, 10), sum = 0;
    auto db = opened(words[1]);
    Figure filling("durable_fill");
    fill(*db, entries);
    filling.end(entries, 0);
    db.reset();
    Figure opening("durable_open");
    db = opened(words[1]);
    opening.end(entries, 0);
    std::string value;
    Figure getting("durable_get");
    for (uint64_t read = 0; read < reads; read++)
        sum = db->Get({}, slice(key_of(random_below(entries, read))), &value).ok() ? with_bytes(sum, value) : with_number(sum, 1);
    getting.end(reads, sum);
}
