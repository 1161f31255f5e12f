// SPDX-License-Identifier: MIT OR Apache-2.0
// A testbench in C++: a recorder beside the library, in a class, and what is answered of a violation.
#include "tsotest.h"
#include "tsotest_record.h"

#include <cassert>
#include <memory>
#include <string>

class Bench {
  public:
    explicit Bench(int cores) : record(new tsotest_record) { tsotest_record_begin(record.get(), cores); }

    std::string recording() const { return text(tsotest_recording_text); }
    std::string program() const { return text(tsotest_program_text); }

    tsotest_record *operator->() { return record.get(); }
    tsotest_record *get() { return record.get(); }

  private:
    std::string text(tsotest_fault (*of)(tsotest_record *, char *, size_t, size_t *)) const
    {
        std::string out(TSOTEST_MAX_RECORDING_BYTES, '\0');
        size_t len = 0;
        assert(!of(record.get(), &out[0], out.size(), &len));
        out.resize(len);
        return out;
    }

    std::unique_ptr<tsotest_record> record;
};

// What a call answers: the room that it asks for first.
template <typename Call> static std::string answer(uint8_t wanted, Call call)
{
    size_t len = 0;
    uint8_t status = call(nullptr, size_t(0), &len);
    std::string out(len, '\0');
    assert(status == wanted && call(&out[0], out.size(), &len) == wanted && len == out.size());
    return out;
}

int main()
{
    // Message passing, of which the second load overtakes the first.
    Bench bench(2);
    tsotest_record_store(bench.get(), 0, 0x40, 1);
    tsotest_record_store(bench.get(), 0, 0x44, 2);
    tsotest_record_load(bench.get(), 1, 0x44, 2);
    tsotest_record_load(bench.get(), 1, 0x40, 0);
    tsotest_record_commit(bench.get(), 0, 0x40, 1);
    tsotest_record_commit(bench.get(), 0, 0x44, 2);
    std::string recording = bench.recording(), program = bench.program();
    char room[1];
    std::string verdict = answer(TSOTEST_VIOLATION, [&](char *out, size_t size, size_t *len) {
        return tsotest_judge(recording.data(), recording.size(), out ? out : room, size, len);
    });
    std::string words = answer(TSOTEST_VIOLATION, [&](char *out, size_t size, size_t *len) {
        return tsotest_explain(recording.data(), recording.size(), program.data(), program.size(), out ? out : room, size, len);
    });
    std::string held = answer(TSOTEST_ALLOWED, [&](char *out, size_t size, size_t *len) {
        return tsotest_verify(recording.data(), recording.size(), verdict.data(), verdict.size(), out ? out : room, size, len);
    });
    assert(program == "core\nst x40 1\nst x44 2\ncore\nld x44\nld x40\n");
    assert(verdict.find("cycle of 4\n") == 0 && tsotest_kind_of(verdict.data(), verdict.size()) == TSOTEST_CYCLE);
    assert(words.find("ld x40 = 0, the initial value") != std::string::npos && words.find("(MP)") != std::string::npos);
    assert(held == "holds\n" && bench->events == 4);
    return 0;
}
