// The libraries beside ours: RE2 in longest-match mode, glibc's regexec, TRE, and PCRE2's JIT.
//
//   peers find|list|records bytes ENGINE ROUNDS PATTERN RECORD
#include "rounds.h"

#define PCRE2_CODE_UNIT_WIDTH 8
#include <pcre2.h>
#include <re2/re2.h>
#include <regex.h>

#include <algorithm>
#include <memory>
#include <string>

// TRE's header takes the names of glibc's, so its functions are declared here, as its header has them.
extern "C" {
typedef int tre_off;
struct TreRegex { size_t nsub; void *value; };
struct TreMatch { tre_off start, end; };
int tre_regncomp(TreRegex *, const char *, size_t, int);
int tre_regnexec(const TreRegex *, const char *, size_t, size_t, TreMatch *, int);
}

namespace {
struct Engine {
  virtual ~Engine() = default;
  // The span of the first match in bytes from..len, if there is one.
  virtual bool find(const char *row, size_t from, size_t len, size_t *start, size_t *end) = 0;
};

[[noreturn]] void fail(const char *why) {
  fprintf(stderr, "peers: %s\n", why);
  exit(1);
}

struct Re2 : Engine {
  std::unique_ptr<RE2> re;
  explicit Re2(const std::string &pattern) {
    RE2::Options options(RE2::Latin1);
    options.set_longest_match(true);
    re = std::make_unique<RE2>(pattern, options);
    if (!re->ok()) fail("RE2 refuses the pattern");
  }
  bool find(const char *row, size_t from, size_t len, size_t *start, size_t *end) override {
    re2::StringPiece match;
    if (!re->Match(re2::StringPiece(row, len), from, len, RE2::UNANCHORED, &match, 1)) return false;
    *start = match.data() - row;
    *end = *start + match.size();
    return true;
  }
};

struct Glibc : Engine {
  regex_t re;
  explicit Glibc(const std::string &pattern) {
    if (regcomp(&re, pattern.c_str(), REG_EXTENDED)) fail("glibc refuses the pattern");
  }
  bool find(const char *row, size_t from, size_t len, size_t *start, size_t *end) override {
    regmatch_t match;
    match.rm_so = from;
    match.rm_eo = len;
    if (regexec(&re, row, 1, &match, REG_STARTEND)) return false;
    *start = match.rm_so;
    *end = match.rm_eo;
    return true;
  }
};

struct Tre : Engine {
  TreRegex re;
  explicit Tre(const std::string &pattern) {
    const int extended = 1;
    if (tre_regncomp(&re, pattern.data(), pattern.size(), extended)) fail("TRE refuses the pattern");
  }
  bool find(const char *row, size_t from, size_t len, size_t *start, size_t *end) override {
    TreMatch match;
    if (tre_regnexec(&re, row + from, len - from, 1, &match, 0)) return false;
    *start = from + match.start;
    *end = from + match.end;
    return true;
  }
};

struct Pcre2 : Engine {
  pcre2_code *code;
  pcre2_match_data *data;
  pcre2_match_context *context;
  explicit Pcre2(const std::string &pattern) {
    int error;
    PCRE2_SIZE place;
    code = pcre2_compile((PCRE2_SPTR)pattern.data(), pattern.size(), PCRE2_NO_AUTO_CAPTURE, &error, &place, nullptr);
    if (!code || pcre2_jit_compile(code, PCRE2_JIT_COMPLETE)) fail("PCRE2 refuses the pattern");
    data = pcre2_match_data_create(1, nullptr);
    context = pcre2_match_context_create(nullptr);
    pcre2_jit_stack_assign(context, nullptr, pcre2_jit_stack_create(1 << 16, 1 << 28, nullptr));
  }
  bool find(const char *row, size_t from, size_t len, size_t *start, size_t *end) override {
    int answer = pcre2_jit_match(code, (PCRE2_SPTR)row, len, from, 0, data, context);
    if (answer == PCRE2_ERROR_NOMATCH) return false;
    if (answer < 0) fail("PCRE2 gives up");
    *start = pcre2_get_ovector_pointer(data)[0];
    *end = pcre2_get_ovector_pointer(data)[1];
    return true;
  }
};

std::unique_ptr<Engine> engine(const std::string &name, const std::string &pattern) {
  if (name == "re2") return std::make_unique<Re2>(pattern);
  if (name == "glibc") return std::make_unique<Glibc>(pattern);
  if (name == "tre") return std::make_unique<Tre>(pattern);
  if (name == "pcre2") return std::make_unique<Pcre2>(pattern);
  fail("no such engine");
}

Outcome round_of(Engine &engine, const std::string &work, const char *row, size_t len) {
  Outcome o = {0, 0};
  size_t start, end;
  const size_t width = 20;
  if (work == "find") {
    if (engine.find(row, 0, len, &start, &end)) add_span(&o, start, end);
  } else if (work == "list") {
    for (size_t at = 0; engine.find(row, at, len, &start, &end); at = end) add_span(&o, start, end);
  } else {
    for (size_t at = 0; at + width <= len; at += width)
      if (engine.find(row + at, 0, width, &start, &end)) add_span(&o, start, end);
  }
  return o;
}
}  // namespace

int main(int argc, char **argv) {
  if (argc != 7) fail("six words");
  Text pattern = read_text(argv[5]), record = read_text(argv[6]);
  auto by = engine(argv[3], std::string((const char *)pattern.bytes, pattern.len));
  double best = 1e300;
  Outcome o = {0, 0};
  for (int r = atoi(argv[4]); r > 0; r--) {
    double start = now_ns();
    o = round_of(*by, argv[1], (const char *)record.bytes, record.len);
    best = std::min(best, now_ns() - start);
  }
  tell(o, best);
  return 0;
}
