// Keeps benches open as a C++ program does, in a class that owns one. It stops at the first answer that is wrong.
#include "aig.h"
#include "wanted.h"
#include <string>
#include <utility>
#include <vector>

namespace {

class Bench {
  public:
    Bench(const std::string &circuit, const std::string &rows)
    {
        uint8_t room[64];
        size_t length = 0;
        status_ = aig_live_open(bytes(circuit), circuit.size(), bytes(rows), rows.size(), &live_, ROOM);
        reason_.assign(reinterpret_cast<const char *>(room), status_ == AIG_REFUSED ? length : 0);
    }
    Bench(const Bench &) = delete;
    Bench &operator=(const Bench &) = delete;
    Bench(Bench &&other) noexcept : live_(other.live_), status_(other.status_) { other.live_ = AIG_LIVE_NONE; }
    ~Bench() { aig_live_close(&live_); }

    int status() const { return status_; }
    const std::string &reason() const { return reason_; }
    aig_live *get() { return &live_; }

    std::vector<uint8_t> row(uint32_t frame, const std::vector<uint32_t> &literals)
    {
        std::vector<uint8_t> values(literals.size());
        WANT(aig_live_row(&live_, frame, literals.data(), literals.size(), values.data(), values.size()) == 0);
        return values;
    }

  private:
    static const uint8_t *bytes(const std::string &text) { return reinterpret_cast<const uint8_t *>(text.data()); }

    aig_live live_ = AIG_LIVE_NONE;
    int status_;
    std::string reason_;
};

const char circuit[] = "aag 4 2 0 1 2\n2\n4\n8\n6 2 4\n8 6 2\n";

}  // namespace

int main()
{
    Bench wrong_rows(circuit, "1\n");
    WANT(wrong_rows.status() == AIG_REFUSED && wrong_rows.reason() == "stimulus: length of line 1");
    WANT(aig_live_close(wrong_rows.get()) == AIG_NOT_OPEN);
    std::vector<Bench> benches;
    for (int one = 0; one < 9; one++)
        benches.emplace_back(circuit, "11\n01\n");
    for (Bench &one : benches) {
        aig_report report = {0, 0};
        WANT(one.status() == AIG_DONE && one.row(0, {6, 8, 9}) == std::vector<uint8_t>({1, 1, 0}));
        WANT(aig_live_set(one.get(), 0, 1, 2, &report) == AIG_LIVE_OK && report.changed == 2);
        WANT(one.row(0, {6, 8, 9, 10}) == std::vector<uint8_t>({2, 2, 2, 16 + AIG_RANGE}));
    }
    Bench moved(std::move(benches.back()));
    WANT(moved.row(1, {2, 5}) == std::vector<uint8_t>({0, 0}));
    WANT(aig_live_close(benches.back().get()) == AIG_NOT_OPEN);
    puts("as wanted");
    return 0;
}
