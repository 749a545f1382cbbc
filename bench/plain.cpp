// The extraction as one would write it in C++ over Google's Protocol Buffers, to compare speeds with.
//
// `plain FROM TO` does what `archappl extract` does with good input, with moments in nanoseconds
// since 1970. The library takes some messages that the archiver refuses, as those with a known
// field of another wire type. Bad input ends it with status 3.

#include <cstdint>
#include <cstdlib>
#include <iostream>
#include <string>

#include "EPICSEvent.pb.h"

namespace {

using Line = std::string;

bool unescape(const Line& line, std::string& message) {
  message.clear();
  for (std::size_t at = 0; at < line.size();) {
    const std::size_t escape = line.find('\x1b', at);
    if (escape == Line::npos) {
      message.append(line, at);
      return true;
    }
    message.append(line, at, escape - at);
    const char code = escape + 1 < line.size() ? line[escape + 1] : 0;
    if (code < 1 || code > 3) return false;
    message.push_back("\x1b\n\r"[code - 1]);
    at = escape + 2;
  }
  return true;
}

// The second and nanosecond of an event, which is parsed whole.
template <class Event>
bool stamp(const std::string& message, uint32_t& secs, uint32_t& nano) {
  static Event event;
  if (!event.ParseFromString(message)) return false;
  secs = event.secondsintoyear();
  nano = event.nano();
  return true;
}

using Stamp = bool (*)(const std::string&, uint32_t&, uint32_t&);

// In the order of the payload types' numbers.
const Stamp kStamps[] = {
    stamp<rakemauve::ScalarString>,   stamp<rakemauve::ScalarShort>,    stamp<rakemauve::ScalarFloat>,
    stamp<rakemauve::ScalarEnum>,     stamp<rakemauve::ScalarByte>,     stamp<rakemauve::ScalarInt>,
    stamp<rakemauve::ScalarDouble>,   stamp<rakemauve::WaveformString>, stamp<rakemauve::WaveformShort>,
    stamp<rakemauve::WaveformFloat>,  stamp<rakemauve::WaveformEnum>,   stamp<rakemauve::WaveformByte>,
    stamp<rakemauve::WaveformInt>,    stamp<rakemauve::WaveformDouble>,
};

uint64_t days(uint64_t year) {
  return 365 * year + (year - 1) / 4 - (year - 1) / 100 + (year - 1) / 400;
}

class Extraction {
 public:
  Extraction(uint64_t from, uint64_t to) : from_(from), to_(to) {}

  // Takes a line without its newline.
  bool take(const Line& line) {
    if (line.empty()) {
      end_chunk();
      return true;
    }
    if (!unescape(line, message_)) return false;
    return inside_ ? sample(line) : header(line);
  }

  bool end() {
    end_chunk();
    return begun_;
  }

 private:
  bool header(const Line& line) {
    rakemauve::PayloadInfo info;
    if (!info.ParseFromString(message_) || info.year() < 1991 || info.year() > 2499) return false;
    stamp_ = kStamps[info.type()];
    start_ = (days(info.year()) - days(1970)) * 86400;
    length_ = (days(info.year() + 1) - days(info.year())) * 86400;
    if (begun_) std::cout.put('\n');
    put(line);
    begun_ = inside_ = true;
    any_ = reached_ = false;
    earlier_.clear();
    return true;
  }

  bool sample(const Line& line) {
    uint32_t secs, nano;
    if (!stamp_(message_, secs, nano) || secs >= length_ || nano >= 1000000000) return false;
    const uint64_t t = (start_ + secs) * 1000000000 + nano;
    if (any_ && t <= last_) return true;
    any_ = true;
    last_ = t;
    if (t < from_) {
      earlier_ = line;
      return true;
    }
    reach();
    if (t <= to_) put(line);
    return true;
  }

  void end_chunk() {
    if (inside_) reach();
    inside_ = false;
  }

  void reach() {
    if (!reached_ && !earlier_.empty()) put(earlier_);
    reached_ = true;
  }

  void put(const Line& line) {
    std::cout.write(line.data(), line.size());
    std::cout.put('\n');
  }

  const uint64_t from_, to_;
  std::string message_;
  Stamp stamp_ = nullptr;
  uint64_t start_ = 0, length_ = 0, last_ = 0;
  bool begun_ = false, inside_ = false, any_ = false, reached_ = false;
  Line earlier_;
};

}  // namespace

int main(int argc, char** argv) {
  if (argc != 3) return 2;
  std::ios::sync_with_stdio(false);
  std::cin.tie(nullptr);
  Extraction extraction(std::strtoull(argv[1], nullptr, 10), std::strtoull(argv[2], nullptr, 10));
  Line line;
  while (std::getline(std::cin, line)) {
    if (std::cin.eof() || !extraction.take(line)) return 3;  // torn, or bad
  }
  return extraction.end() ? 0 : 3;
}
