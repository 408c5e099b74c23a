// LevelDB and RocksDB behind the lines of `surfstore`, so that a line of each costs the same protocol.
//
//     g++ -O3 -std=c++17 -o peers tools/peers.cpp -lleveldb -lrocksdb
//     ./peers leveldb|rocksdb FOLDER cached|uncached < LINES
//
// It answers `put K V`, `del K`, `get K`, `seek LO HI`, `range LO HI N`, `compact` and `quit` as `surfstore PATH serve` does,
// one write for each reply, and `reads` with how many reads of table files there were. A put is synced. Both stores have a
// Bloom filter of 10 bits a key, no compression, and either their own default cache of blocks or none.
#include <cstdint>
#include <cstdio>
#include <cstdlib>
#include <cstring>
#include <memory>
#include <string>
#include <unistd.h>

#include <leveldb/cache.h>
#include <leveldb/db.h>
#include <leveldb/env.h>
#include <leveldb/filter_policy.h>
#include <rocksdb/db.h>
#include <rocksdb/filter_policy.h>
#include <rocksdb/perf_context.h>
#include <rocksdb/perf_level.h>
#include <rocksdb/table.h>

static uint64_t table_reads = 0;

// A table file of LevelDB whose reads are counted.
struct CountedFile : leveldb::RandomAccessFile {
    std::unique_ptr<leveldb::RandomAccessFile> file;
    explicit CountedFile(leveldb::RandomAccessFile *inner) : file(inner) {}
    leveldb::Status Read(uint64_t at, size_t n, leveldb::Slice *result, char *scratch) const override {
        ++table_reads;
        return file->Read(at, n, result, scratch);
    }
};

struct CountedFiles : leveldb::EnvWrapper {
    CountedFiles() : leveldb::EnvWrapper(leveldb::Env::Default()) {}
    leveldb::Status NewRandomAccessFile(const std::string &name, leveldb::RandomAccessFile **out) override {
        leveldb::RandomAccessFile *inner = nullptr;
        leveldb::Status status = target()->NewRandomAccessFile(name, &inner);
        *out = status.ok() ? new CountedFile(inner) : nullptr;
        return status;
    }
};

// What the lines ask of a store.
struct LevelStore {
    CountedFiles files;
    leveldb::DB *db = nullptr;

    bool open(const std::string &path, bool cached) {
        leveldb::Options options;
        options.create_if_missing = true;
        options.env = &files;
        options.compression = leveldb::kNoCompression;
        options.filter_policy = leveldb::NewBloomFilterPolicy(10);
        if (!cached)
            options.block_cache = leveldb::NewLRUCache(0);
        return leveldb::DB::Open(options, path, &db).ok();
    }
    bool put(const std::string &key, const std::string &value) {
        leveldb::WriteOptions options;
        options.sync = true;
        return db->Put(options, key, value).ok();
    }
    bool remove(const std::string &key) {
        leveldb::WriteOptions options;
        options.sync = true;
        return db->Delete(options, key).ok();
    }
    bool get(const std::string &key, std::string *value) { return db->Get(leveldb::ReadOptions(), key, value).ok(); }
    auto *iterator() { return db->NewIterator(leveldb::ReadOptions()); }
    void compact() { db->CompactRange(nullptr, nullptr); }
    uint64_t reads() { return table_reads; }
    using Slice = leveldb::Slice;
};

struct RocksStore {
    rocksdb::DB *db = nullptr;

    bool open(const std::string &path, bool cached) {
        rocksdb::BlockBasedTableOptions table;
        table.filter_policy.reset(rocksdb::NewBloomFilterPolicy(10, false));
        table.no_block_cache = !cached;
        rocksdb::Options options;
        options.create_if_missing = true;
        options.compression = rocksdb::kNoCompression;
        options.table_factory.reset(rocksdb::NewBlockBasedTableFactory(table));
        rocksdb::SetPerfLevel(cached ? rocksdb::kDisable : rocksdb::kEnableCount);
        return rocksdb::DB::Open(options, path, &db).ok();
    }
    bool put(const std::string &key, const std::string &value) {
        rocksdb::WriteOptions options;
        options.sync = true;
        return db->Put(options, key, value).ok();
    }
    bool remove(const std::string &key) {
        rocksdb::WriteOptions options;
        options.sync = true;
        return db->Delete(options, key).ok();
    }
    bool get(const std::string &key, std::string *value) { return db->Get(rocksdb::ReadOptions(), key, value).ok(); }
    auto *iterator() { return db->NewIterator(rocksdb::ReadOptions()); }
    void compact() { db->CompactRange(rocksdb::CompactRangeOptions(), nullptr, nullptr); }
    uint64_t reads() { return rocksdb::get_perf_context()->block_read_count; }
    using Slice = rocksdb::Slice;
};

static const char DIGITS[] = "0123456789abcdef";

static void spell(const char *bytes, size_t count, std::string &out) {
    if (count == 0)
        out += '-';
    for (size_t i = 0; i < count; ++i) {
        out += DIGITS[(unsigned char)bytes[i] >> 4];
        out += DIGITS[bytes[i] & 15];
    }
}

static int digit(char c) { return c <= '9' ? c - '0' : (c | 32) - 'a' + 10; }

// The next word of a line.
static std::string word(const char *&at) {
    const char *from = at;
    while (*at != ' ' && *at != '\n' && *at != 0)
        ++at;
    std::string found(from, at);
    if (*at == ' ')
        ++at;
    return found;
}

// The bytes that the next word spells.
static std::string bytes(const char *&at) {
    std::string text = word(at), found;
    if (text == "-")
        return found;
    for (size_t i = 0; i + 1 < text.size(); i += 2)
        found += char(digit(text[i]) << 4 | digit(text[i + 1]));
    return found;
}

template <class Store>
void rows(Store &store, const std::string &low, const std::string &high, long most, bool counted, std::string &out) {
    std::unique_ptr<std::remove_pointer_t<decltype(store.iterator())>> it(store.iterator());
    long found = 0;
    for (it->Seek(low); it->Valid() && found < most && it->key().compare(typename Store::Slice(high)) <= 0; it->Next()) {
        out += "at ";
        spell(it->key().data(), it->key().size(), out);
        out += ' ';
        spell(it->value().data(), it->value().size(), out);
        out += '\n';
        ++found;
    }
    if (counted)
        out += "end " + std::to_string(found) + "\n";
    else if (found == 0)
        out += "none\n";
}

template <class Store>
std::string answer(Store &store, const char *line) {
    const char *at = line;
    std::string call = word(at), out, value;
    if (call == "put") {
        std::string key = bytes(at);
        out = store.put(key, bytes(at)) ? "ok\n" : "device\n";
    } else if (call == "del") {
        out = store.remove(bytes(at)) ? "ok\n" : "device\n";
    } else if (call == "get") {
        if (store.get(bytes(at), &value)) {
            out = "val ";
            spell(value.data(), value.size(), out);
            out += '\n';
        } else {
            out = "none\n";
        }
    } else if (call == "seek") {
        std::string low = bytes(at);
        rows(store, low, bytes(at), 1, false, out);
    } else if (call == "range") {
        std::string low = bytes(at), high = bytes(at);
        rows(store, low, high, std::atol(word(at).c_str()), true, out);
    } else if (call == "compact") {
        store.compact();
        out = "ok\n";
    } else if (call == "reads") {
        out = "reads " + std::to_string(store.reads()) + "\n";
    } else {
        out = "bye\n";
    }
    return out;
}

template <class Store>
int serve(const char *path, bool cached) {
    Store store;
    if (!store.open(path, cached))
        return 4;
    char *line = nullptr;
    size_t room = 0;
    while (getline(&line, &room, stdin) > 0) {
        std::string reply = answer(store, line);
        if (write(1, reply.data(), reply.size()) < 0)
            return 6;
        if (reply == "bye\n")
            break;
    }
    free(line);
    delete store.db;
    return 0;
}

int main(int count, char **words) {
    if (count != 4) {
        std::fprintf(stderr, "usage: peers leveldb|rocksdb FOLDER cached|uncached < LINES\n");
        return 2;
    }
    bool cached = std::strcmp(words[3], "cached") == 0;
    return std::strcmp(words[1], "leveldb") == 0 ? serve<LevelStore>(words[2], cached) : serve<RocksStore>(words[2], cached);
}
