// The bit kernels as the authors of SuRF (Zhang et al., SIGMOD 2018) write them in C++, to stand beside `bits_bench`:
// rank by popcount over blocks of 512 bits, select by a kept place for each 64 set bits, and a label search of a
// section, one by one below 3 labels, by halves below 12 and by 16-byte compares from there on.
//
//     g++ -O3 -march=native -o surf_kernels tools/surf_kernels.cpp
//     ./surf_kernels rank 16777216 1000000 7
//     ./surf_kernels select 1048576 1000000 7 16
//     ./surf_kernels find_label 12 2000000 7
//
// The arguments are the kernel, and what `bits_bench` takes as `--count`, `--calls`, `--seed` and `--one-in` (2 where it
// is left out). Prints the least processor time of a call over the rounds, in nanoseconds.
#include <cstdint>
#include <cstdio>
#include <cstdlib>
#include <ctime>
#include <immintrin.h>
#include <string>
#include <vector>

using std::size_t;
using std::uint64_t;
using std::uint8_t;

constexpr int ROUNDS = 9;
constexpr size_t BLOCK_BITS = 512;
constexpr size_t STEP = 64;
constexpr size_t NODES = 1024;
constexpr size_t QUERIES = 65536;

// The numbers of `bits_bench`.
struct Numbers {
    uint64_t state;
    uint64_t draw() {
        state = state * 6364136223846793005ull + 1442695040888963407ull;
        return state ^ (state >> 29);
    }
    uint64_t draw_to(uint64_t last) { return last == ~0ull ? draw() : draw() % (last + 1); }
};

double thread_nanoseconds() {
    timespec now;
    clock_gettime(CLOCK_THREAD_CPUTIME_ID, &now);
    return now.tv_sec * 1e9 + now.tv_nsec;
}

std::vector<uint64_t> random_words(size_t bits, uint64_t one_in, Numbers &numbers) {
    std::vector<uint64_t> words((bits + 63) / 64 + 8, 0);
    for (size_t i = 0; i < bits; ++i)
        if (numbers.draw_to(one_in - 1) == 0)
            words[i / 64] |= 1ull << (i % 64);
    return words;
}

struct Rank {
    std::vector<uint64_t> words;
    std::vector<uint32_t> counts;

    explicit Rank(std::vector<uint64_t> bits) : words(std::move(bits)) {
        uint32_t count = 0;
        for (size_t i = 0; i < words.size(); ++i) {
            if (i % (BLOCK_BITS / 64) == 0)
                counts.push_back(count);
            count += __builtin_popcountll(words[i]);
        }
    }

    // The set bits below place i.
    __attribute__((noinline)) uint64_t rank(size_t i) const {
        size_t block = i / BLOCK_BITS;
        uint64_t count = counts[block];
        for (size_t k = block * (BLOCK_BITS / 64); k < i / 64; ++k)
            count += __builtin_popcountll(words[k]);
        return count + __builtin_popcountll(words[i / 64] & ((1ull << (i % 64)) - 1));
    }
};

// The place of the nth set bit of a word, by halves.
size_t nth_one(uint64_t word, uint64_t n) {
    size_t place = 0;
    for (int width = 32; width > 0; width >>= 1) {
        uint64_t count = __builtin_popcountll(word & ((1ull << width) - 1));
        if (n >= count) {
            word >>= width;
            place += width;
            n -= count;
        }
    }
    return place;
}

struct Select {
    std::vector<uint64_t> words;
    std::vector<uint32_t> samples;
    uint64_t ones = 0;

    explicit Select(std::vector<uint64_t> bits) : words(std::move(bits)) {
        for (size_t i = 0; i < words.size(); ++i) {
            uint64_t count = __builtin_popcountll(words[i]);
            while (samples.size() * STEP < ones + count)
                samples.push_back(64 * i + nth_one(words[i], samples.size() * STEP - ones));
            ones += count;
        }
    }

    // The place of the nth set bit, which is there.
    __attribute__((noinline)) uint64_t select(uint64_t n) const {
        size_t sample = samples[n / STEP];
        uint64_t left = n % STEP;
        size_t k = sample / 64;
        uint64_t word = words[k] >> (sample % 64) << (sample % 64);
        uint64_t count = __builtin_popcountll(word);
        while (left >= count) {
            left -= count;
            word = words[++k];
            count = __builtin_popcountll(word);
        }
        return 64 * k + nth_one(word, left);
    }
};

// Whether a label is among `count` rising ones from place `at` on, and where. Reads up to 15 bytes behind them.
bool find_by_lanes(const uint8_t *section, size_t &at, size_t count, uint8_t label) {
    size_t done = 0;
    for (; count - done >= 16; done += 16) {
        __m128i lanes = _mm_loadu_si128(reinterpret_cast<const __m128i *>(section + at + done));
        unsigned marks = _mm_movemask_epi8(_mm_cmpeq_epi8(lanes, _mm_set1_epi8(label)));
        if (marks != 0) {
            at += done + __builtin_ctz(marks);
            return true;
        }
    }
    if (count > done) {
        __m128i lanes = _mm_loadu_si128(reinterpret_cast<const __m128i *>(section + at + done));
        unsigned marks = _mm_movemask_epi8(_mm_cmpeq_epi8(lanes, _mm_set1_epi8(label)));
        marks &= (1u << (count - done)) - 1;
        if (marks != 0) {
            at += done + __builtin_ctz(marks);
            return true;
        }
    }
    return false;
}

bool find_by_halves(const uint8_t *section, size_t &at, size_t count, uint8_t label) {
    size_t low = at, high = at + count;
    while (low < high) {
        size_t middle = (low + high) / 2;
        if (label < section[middle]) {
            high = middle;
        } else if (label == section[middle]) {
            at = middle;
            return true;
        } else {
            low = middle + 1;
        }
    }
    return false;
}

bool find_one_by_one(const uint8_t *section, size_t &at, size_t count, uint8_t label) {
    for (size_t i = 0; i < count; ++i)
        if (section[at + i] == label) {
            at += i;
            return true;
        }
    return false;
}

__attribute__((noinline)) bool find_label(const uint8_t *section, size_t &at, size_t count, uint8_t label) {
    if (count < 3)
        return find_one_by_one(section, at, count, label);
    if (count < 12)
        return find_by_halves(section, at, count, label);
    return find_by_lanes(section, at, count, label);
}

template <typename Sum> void measure(const char *name, uint64_t calls, Sum sum) {
    double least = 1e300;
    uint64_t total = 0;
    for (int round = 0; round < ROUNDS; ++round) {
        double start = thread_nanoseconds();
        total += sum();
        double taken = (thread_nanoseconds() - start) / calls;
        if (taken < least)
            least = taken;
    }
    std::printf("%s: %.2f ns, sum %llu\n", name, least, static_cast<unsigned long long>(total));
}

struct Query {
    size_t start;
    uint8_t label;
};

void measure_labels(size_t fan_out, uint64_t calls, Numbers &numbers) {
    std::vector<uint8_t> labels;
    uint64_t gap = 256 / fan_out;
    for (size_t node = 0; node < NODES; ++node)
        for (size_t i = 0; i < fan_out; ++i)
            labels.push_back(i * gap + numbers.draw_to(gap - 1));
    labels.resize(labels.size() + 16);
    std::vector<Query> queries;
    for (size_t i = 0; i < QUERIES; ++i) {
        size_t start = numbers.draw_to(NODES - 1) * fan_out;
        size_t place = start + numbers.draw_to(fan_out - 1);
        uint8_t any = numbers.draw_to(255);
        uint8_t there = labels[place];
        queries.push_back({start, numbers.draw_to(1) == 0 ? there : any});
    }
    uint64_t rounds = calls / QUERIES + 1;
    measure("find_label", rounds * QUERIES, [&] {
        uint64_t sum = 0;
        for (uint64_t round = 0; round < rounds; ++round)
            for (const Query &query : queries) {
                size_t place = query.start;
                sum += find_label(labels.data(), place, fan_out, query.label) ? place - query.start : 256;
            }
        return sum;
    });
}

int main(int count, char **words) {
    if (count != 5 && count != 6) {
        std::puts("usage: surf_kernels rank|select|find_label SIZE CALLS SEED [ONE_IN]");
        return 2;
    }
    std::string kernel = words[1];
    size_t size = std::strtoull(words[2], nullptr, 10);
    uint64_t calls = std::strtoull(words[3], nullptr, 10);
    Numbers numbers{std::strtoull(words[4], nullptr, 10)};
    uint64_t one_in = count == 6 ? std::strtoull(words[5], nullptr, 10) : 2;
    if (kernel == "find_label") {
        measure_labels(size, calls, numbers);
        return 0;
    }
    std::vector<uint64_t> bits = random_words(size, one_in, numbers);
    std::vector<uint64_t> wanted(calls);
    if (kernel == "rank") {
        Rank rank(bits);
        for (uint64_t &place : wanted)
            place = numbers.draw_to(size);
        measure("rank", calls, [&] {
            uint64_t sum = 0;
            for (uint64_t place : wanted)
                sum += rank.rank(place);
            return sum;
        });
    } else if (kernel == "select") {
        Select select(bits);
        for (uint64_t &n : wanted)
            n = numbers.draw_to(select.ones - 1);
        measure("select", calls, [&] {
            uint64_t sum = 0;
            for (uint64_t n : wanted)
                sum += select.select(n);
            return sum;
        });
    }
    return 0;
}
