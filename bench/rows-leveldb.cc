// The rows of bench/rows.sh over LevelDB's table files: one written, rows read by key, walks of 100 rows. Run by that script.
#include <cstdint>
#include <cstdio>
#include <ctime>
#include <string>

#include <leveldb/env.h>
#include <leveldb/iterator.h>
#include <leveldb/options.h>
#include <leveldb/table.h>
#include <leveldb/table_builder.h>

static const uint32_t kRows = 100000;

// A key that many others begin as, of the row of this number in the first of four files.
static std::string KeyOf(uint32_t i) {
  const uint32_t number = i * 4 + 1;
  std::string key = "customer#";
  for (int shift = 24; shift >= 0; shift -= 8) key.push_back(static_cast<char>(number >> shift));
  return key;
}

// A number that lies anywhere.
static uint32_t Spread(uint32_t i) { return i * 2654435761u % kRows; }

static double Spent() { return static_cast<double>(clock()) / CLOCKS_PER_SEC; }

static void Check(const leveldb::Status& status) {
  if (!status.ok()) {
    fprintf(stderr, "rows-leveldb: %s\n", status.ToString().c_str());
    _Exit(1);
  }
}

// The rows are written and synced: the file's length.
static uint64_t Write(const leveldb::Options& options, const std::string& name) {
  leveldb::WritableFile* file;
  Check(options.env->NewWritableFile(name, &file));
  leveldb::TableBuilder builder(options, file);
  for (uint32_t i = 0; i < kRows; i++) builder.Add(KeyOf(i), std::string(187, static_cast<char>(i % 251)));
  Check(builder.Finish());
  Check(file->Sync());
  Check(file->Close());
  delete file;
  return builder.FileSize();
}

// Rows from this number on, each of them one key or many: how many there were.
static uint32_t Walk(leveldb::Table* table, const leveldb::ReadOptions& read, uint32_t from, uint32_t most) {
  leveldb::Iterator* it = table->NewIterator(read);
  uint32_t count = 0;
  for (it->Seek(KeyOf(from)); it->Valid() && count < most; it->Next()) count += it->value().size() == 187;
  Check(it->status());
  delete it;
  return count;
}

int main(int, char** words) {
  leveldb::Options options;
  options.env = leveldb::Env::Default();
  options.compression = leveldb::kNoCompression;
  leveldb::ReadOptions read;
  read.verify_checksums = true;
  double at = Spent();
  const uint64_t length = Write(options, words[1]);
  printf("LevelDB: the rows written and synced, a file of %llu bytes: %.2f s\n", static_cast<unsigned long long>(length), Spent() - at);
  leveldb::RandomAccessFile* file;
  leveldb::Table* table;
  Check(options.env->NewRandomAccessFile(words[1], &file));
  Check(leveldb::Table::Open(options, file, length, &table));
  at = Spent();
  uint32_t found = 0;
  for (uint32_t i = 0; i < kRows; i++) found += Walk(table, read, Spread(i), 1);
  printf("LevelDB: a row by its key: %.1f microseconds\n", (Spent() - at) * 1e6 / found);
  at = Spent();
  for (uint32_t i = 0; i < 10000; i++) found += Walk(table, read, Spread(i) / 2, 100);
  printf("LevelDB: a walk of 100 rows: %.1f microseconds\n", (Spent() - at) * 1e6 / 10000);
  delete table;
  delete file;
}
