// The items of bench/engine.sh over LevelDB: puts without a sync, gets and walks of 100 from its files, checksums verified and nothing
// compressed. Run by that script: leveldb FOLDER ITEMS FEW.
#include <cstdint>
#include <cstdio>
#include <cstdlib>
#include <ctime>
#include <memory>
#include <string>

#include <leveldb/cache.h>
#include <leveldb/db.h>
#include <leveldb/iterator.h>

static std::string KeyOf(uint64_t i) {
  char key[32];
  snprintf(key, sizeof key, "customer#%07llu#%02llu", static_cast<unsigned long long>(i / 100), static_cast<unsigned long long>(i % 100));
  return key;
}

static double Spent() { return static_cast<double>(clock()) / CLOCKS_PER_SEC; }

static void Check(const leveldb::Status& status) {
  if (status.ok()) return;
  fprintf(stderr, "engine-leveldb: %s\n", status.ToString().c_str());
  exit(1);
}

// A database with this many items of 337 bytes, all of them in its files.
static std::unique_ptr<leveldb::DB> Filled(const std::string& name, uint64_t items, leveldb::Cache* cache) {
  leveldb::Options options;
  options.create_if_missing = true;
  options.compression = leveldb::kNoCompression;
  options.block_cache = cache;
  options.write_buffer_size = 8 << 20;
  leveldb::DB* db;
  Check(leveldb::DB::Open(options, name, &db));
  const double at = Spent();
  for (uint64_t i = 0; i < items; i++) Check(db->Put({}, KeyOf(i), std::string(337, static_cast<char>(i % 251))));
  printf("LevelDB: %llu puts: %.2f microseconds of the processor each, its merges included\n", static_cast<unsigned long long>(items), (Spent() - at) * 1e6 / items);
  db->CompactRange(nullptr, nullptr);
  return std::unique_ptr<leveldb::DB>(db);
}

int main(int, char** words) {
  const uint64_t items = strtoull(words[2], nullptr, 10), few = strtoull(words[3], nullptr, 10);
  std::unique_ptr<leveldb::Cache> cache(leveldb::NewLRUCache(0));
  Filled(std::string(words[1]) + "-all", items, cache.get());
  std::unique_ptr<leveldb::DB> db = Filled(words[1], few, cache.get());
  leveldb::ReadOptions read;
  read.verify_checksums = true;
  std::string value;
  double at = Spent();
  for (uint64_t i = 0; i < 20000; i++) Check(db->Get(read, KeyOf(i * 7919 % few), &value));
  printf("LevelDB: a get from its files: %.2f microseconds of the processor\n", (Spent() - at) * 1e6 / 20000);
  at = Spent();
  uint64_t seen = 0;
  for (uint64_t i = 0; i < 2000; i++) {
    std::unique_ptr<leveldb::Iterator> it(db->NewIterator(read));
    it->Seek(KeyOf(i * 79 % (few / 100) * 100));
    for (int n = 0; n < 100 && it->Valid(); n++, it->Next()) seen += it->value().size();
    Check(it->status());
  }
  if (seen != 2000u * 100 * 337) return 1;
  printf("LevelDB: a walk of 100 items: %.2f microseconds of the processor\n", (Spent() - at) * 1e6 / 2000);
}
