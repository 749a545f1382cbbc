// A store of samples as one would write it in C++ over SQLite, to compare speeds with.
//
// `sqlite FILE ingest` reads a raw PB stream of one year from standard input and keeps each sample's
// line by variable and time, one transaction a chunk. `sqlite FILE get NAME FROM TO`, with moments in
// nanoseconds since 1970, writes the variable's header, the last sample before the interval and the
// interval's. It reads of each message the fields that it needs, at the front, and checks no more.

#include <sqlite3.h>

#include <cstdint>
#include <cstdio>
#include <cstdlib>
#include <iostream>
#include <stdexcept>
#include <string>

namespace {

constexpr uint64_t kSecond = 1000000000;

uint64_t days(uint64_t year) {
  return 365 * year + (year - 1) / 4 - (year - 1) / 100 + (year - 1) / 400;
}

// The bytes of an escaped line, one after another.
class Reader {
 public:
  explicit Reader(const std::string& line) : line_(line) {}

  uint8_t byte() {
    const uint8_t one = line_.at(at_++);
    return one == 0x1b ? "\x1b\n\r"[line_.at(at_++) - 1] : one;
  }

  uint64_t varint() {
    uint64_t number = 0;
    for (int shift = 0;; shift += 7) {
      const uint8_t one = byte();
      number |= uint64_t(one & 0x7f) << shift;
      if (one < 0x80) return number;
    }
  }

  uint64_t field(uint8_t tag) {
    if (byte() != tag) throw std::runtime_error("another field");
    return varint();
  }

 private:
  const std::string& line_;
  std::size_t at_ = 0;
};

// A prepared statement.
class Statement {
 public:
  Statement(sqlite3* base, const char* text) {
    if (sqlite3_prepare_v2(base, text, -1, &statement_, nullptr) != SQLITE_OK) throw std::runtime_error(text);
  }
  ~Statement() { sqlite3_finalize(statement_); }

  Statement& bind(int at, int64_t number) {
    sqlite3_bind_int64(statement_, at, number);
    return *this;
  }
  Statement& bind(int at, const std::string& bytes) {
    sqlite3_bind_blob(statement_, at, bytes.data(), bytes.size(), SQLITE_STATIC);
    return *this;
  }
  bool row() {
    const int answer = sqlite3_step(statement_);
    if (answer != SQLITE_ROW && answer != SQLITE_DONE) throw std::runtime_error("a step failed");
    return answer == SQLITE_ROW;
  }
  void run() {
    row();
    sqlite3_reset(statement_);
  }
  void reset() { sqlite3_reset(statement_); }
  int64_t number(int column) { return sqlite3_column_int64(statement_, column); }
  void write(int column) {
    const void* bytes = sqlite3_column_blob(statement_, column);
    std::fwrite(bytes, 1, sqlite3_column_bytes(statement_, column), stdout);
    std::fputc('\n', stdout);
  }

 private:
  sqlite3_stmt* statement_ = nullptr;
};

class Base {
 public:
  explicit Base(const char* path) {
    if (sqlite3_open(path, &base_) != SQLITE_OK) throw std::runtime_error(path);
    for (const char* text : {"PRAGMA journal_mode = WAL", "PRAGMA synchronous = FULL", "PRAGMA cache_size = -65536",
                             "CREATE TABLE IF NOT EXISTS variable (pv INTEGER PRIMARY KEY, name BLOB UNIQUE, header BLOB)",
                             "CREATE TABLE IF NOT EXISTS sample (pv INTEGER, t INTEGER, line BLOB, PRIMARY KEY (pv, t))"
                             " WITHOUT ROWID"})
      Statement(base_, text).run();
  }
  ~Base() { sqlite3_close(base_); }
  sqlite3* base() { return base_; }

 private:
  sqlite3* base_ = nullptr;
};

class Ingest {
 public:
  explicit Ingest(sqlite3* base)
      : begin_(base, "BEGIN IMMEDIATE"), commit_(base, "COMMIT"),
        name_(base, "INSERT OR IGNORE INTO variable (name, header) VALUES (?, ?)"),
        last_(base, "SELECT pv, (SELECT max(t) FROM sample WHERE sample.pv = variable.pv) FROM variable WHERE name = ?"),
        sample_(base, "INSERT INTO sample VALUES (?, ?, ?)") {}

  // Takes a line without its newline.
  void take(const std::string& line) {
    if (line.empty()) {
      end();
    } else if (inside_) {
      sample(line);
    } else {
      header(line);
    }
  }

  void end() {
    if (inside_) commit_.run();
    inside_ = false;
  }

 private:
  void header(const std::string& line) {
    Reader reader(line);
    reader.field(0x08);
    std::string name(reader.field(0x12), 0);
    for (char& byte : name) byte = reader.byte();
    start_ = (days(reader.field(0x18)) - days(1970)) * 86400 * kSecond;
    begin_.run();
    name_.bind(1, name).bind(2, line).run();
    last_.bind(1, name).row();
    pv_ = last_.number(0);
    end_ = last_.number(1);
    last_.reset();
    inside_ = true;
  }

  void sample(const std::string& line) {
    Reader reader(line);
    const uint64_t secs = reader.field(0x08);
    const int64_t t = start_ + secs * kSecond + reader.field(0x10);
    if (t <= end_) return;
    end_ = t;
    sample_.bind(1, pv_).bind(2, t).bind(3, line).run();
  }

  Statement begin_, commit_, name_, last_, sample_;
  int64_t start_ = 0, pv_ = 0, end_ = 0;
  bool inside_ = false;
};

void ingest(sqlite3* base) {
  std::ios::sync_with_stdio(false);
  Ingest ingest(base);
  std::string line;
  while (std::getline(std::cin, line)) ingest.take(line);
  ingest.end();
}

void get(sqlite3* base, const std::string& name, int64_t from, int64_t to) {
  Statement header(base, "SELECT pv, header FROM variable WHERE name = ?");
  if (!header.bind(1, name).row()) throw std::runtime_error("no such variable");
  header.write(1);
  Statement lines(base,
                  "SELECT line FROM sample WHERE pv = ?1 AND t <= ?3 AND t >= coalesce("
                  "(SELECT max(t) FROM sample WHERE pv = ?1 AND t < ?2), ?2) ORDER BY t");
  lines.bind(1, header.number(0)).bind(2, from).bind(3, to);
  while (lines.row()) lines.write(0);
}

}  // namespace

int main(int argc, char** argv) {
  Base base(argc > 2 ? argv[1] : "");
  const std::string command = argc > 2 ? argv[2] : "";
  if (command == "ingest" && argc == 3) {
    ingest(base.base());
  } else if (command == "get" && argc == 6) {
    get(base.base(), argv[3], std::atoll(argv[4]), std::atoll(argv[5]));
  } else {
    return 2;
  }
}
