// The work of 'lsm_timing synced N K' over LevelDB, in the new folder that is named: N puts, each a write of its own, of which each K-th, and the last,
// syncs the log with all that is written before it. It fails if not all entries are there then.
#include "leveldb_peer.h"

static void put_all(leveldb::DB &db, uint64_t entries, uint64_t turn) {
    for (uint64_t index = 0; index < entries; index++) {
        leveldb::WriteOptions options;
        options.sync = (index + 1) % turn == 0 || index + 1 == entries;
        ok(db.Put(options, slice(key_of(index)), slice(value_of(index))));
    }
}

static uint64_t count(leveldb::DB &db) {
    uint64_t entries = 0;
    std::unique_ptr<leveldb::Iterator> it(db.NewIterator({}));
    for (it->SeekToFirst(); it->Valid(); it->Next()) entries++;
    ok(it->status());
    return entries;
}

int main(int words_count, char **words) {
    uint64_t entries = words_count == 4 ? strtoull(words[2], nullptr, 10) : 0, turn = words_count == 4 ? strtoull(words[3], nullptr, 10) : 0;
    if (entries == 0 || turn == 0) { fprintf(stderr, "usage: synced_peer FOLDER ENTRIES TURN\n"); return 2; }
    auto db = opened(words[1]);
    Figure putting("synced_leveldb");
    put_all(*db, entries, turn);
    putting.end(entries, entries);
    if (count(*db) != entries) { fprintf(stderr, "entries are missing\n"); return 1; }
}
