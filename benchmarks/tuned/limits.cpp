// What this machine can do at all: reading a file, a new page, copying, and loads that miss the caches. It prints names
// and numbers: nanoseconds of processor time, the least of five.
#include <fcntl.h>
#include <sys/mman.h>
#include <sys/resource.h>
#include <unistd.h>

#include <cstdint>
#include <cstdio>
#include <cstring>
#include <random>
#include <utility>
#include <vector>

static constexpr size_t block = 64 << 10, page = 4096, large = 64 << 20, line = 64;

static double seconds_of(const timeval& time) { return static_cast<double>(time.tv_sec) + time.tv_usec * 1e-6; }

static double now() {
    rusage usage;
    getrusage(RUSAGE_SELF, &usage);
    return seconds_of(usage.ru_utime) + seconds_of(usage.ru_stime);
}

// Prints the time of a unit of some work.
template <typename Work>
static void print(const char* name, size_t units, Work work) {
    double least = 1e9;
    for (int at = 0; at < 5; ++at) {
        double start = now();
        work();
        double took = now() - start;
        if (took < least) least = took;
    }
    printf("%s %.6f\n", name, least / static_cast<double>(units) * 1e9);
}

static char* fresh(size_t bytes) {
    void* found = mmap(nullptr, bytes, PROT_READ | PROT_WRITE, MAP_PRIVATE | MAP_ANONYMOUS, -1, 0);
    return found == MAP_FAILED ? nullptr : static_cast<char*>(found);
}

static void read_whole(const char* path) {
    static char buffer[block];
    int file = open(path, O_RDONLY);
    while (read(file, buffer, block) > 0) {
    }
    close(file);
}

static void touch_pages() {
    char* pages = fresh(large);
    if (!pages) return;
    for (size_t at = 0; at < large; at += page) pages[at] = 1;
    munmap(pages, large);
}

// A cycle through all lines in random order: at each line is the number of the next one.
static std::vector<uint32_t> cycle(size_t lines) {
    std::vector<uint32_t> order(lines), next(lines * (line / sizeof(uint32_t)));
    for (size_t at = 0; at < lines; ++at) order[at] = static_cast<uint32_t>(at);
    std::mt19937 random(1);
    for (size_t at = lines - 1; at > 0; --at) std::swap(order[at], order[random() % (at + 1)]);
    for (size_t at = 0; at < lines; ++at) next[order[at] * (line / sizeof(uint32_t))] = order[(at + 1) % lines];
    return next;
}

int main(int count, char** words) {
    if (count != 2) return 2;
    print("read_a_file", 1, [&] { read_whole(words[1]); });
    print("new_page", large / page, touch_pages);
    std::vector<char> from(large, 1), to(large);
    print("copy_a_byte", large, [&] { memcpy(to.data(), from.data(), large); });
    const size_t lines = large / line;
    std::vector<uint32_t> next = cycle(lines);
    uint32_t at = 0, sum = 0;
    print("miss_that_waits", lines, [&] {
        for (size_t step = 0; step < lines; ++step) at = next[at * (line / sizeof(uint32_t))];
    });
    std::vector<uint32_t> places(lines);
    std::mt19937 random(2);
    for (uint32_t& place : places) place = static_cast<uint32_t>(random() % lines);
    print("miss_that_overlaps", lines, [&] {
        for (uint32_t place : places) sum += next[place * (line / sizeof(uint32_t))];
    });
    return at + sum == 12345 ? 1 : 0;
}
