// What the benchmark programs have in common: input files, the clock, rows of output, discs, and
// growing and filling for libraries that only give the neighbours of one cell.
#pragma once

#include <time.h>

#include <algorithm>
#include <cmath>
#include <cstdint>
#include <cstdio>
#include <cstdlib>
#include <string>
#include <vector>

using Bytes = std::vector<uint8_t>;

constexpr uint32_t CALL_LEVEL = 14;    // of the single calls
constexpr uint32_t BORDER_LEVEL = 10;  // of the stored border
constexpr uint32_t CODES = 4096;       // of the stored border
constexpr uint32_t MASK_LEVELS[] = {6, 7, 8};
constexpr uint32_t DAY_LIMIT = 10;
constexpr size_t PIECE = 1 << 15;  // single calls are timed in pieces of so many

// A position in millionths of a degree, and a disc about it.
struct Position {
    int32_t latitude, longitude;
};
struct Disc {
    Position centre;
    int32_t radius;
};

// The region that is filled holds a pole; the outside cell is the one at OUTSIDE.
constexpr Disc REGION = {{70'000'000, 10'000'000}, 30'000'000};
constexpr Position OUTSIDE = {-70'000'000, -170'000'000};

// The ring counts that are measured at a level.
inline std::vector<uint32_t> ring_counts(uint32_t level) {
    if (level == 8) return {1, 4, 16, 64};
    return {16};
}

inline double radians(int32_t microdegrees) { return microdegrees * (M_PI / 180e6); }

[[noreturn]] inline void fail(const std::string &what) {
    std::fprintf(stderr, "bench: %s\n", what.c_str());
    std::exit(1);
}

// A file of plain values in the folder of the inputs.
template <class T>
std::vector<T> load(const std::string &folder, const std::string &name) {
    std::FILE *file = std::fopen((folder + "/" + name).c_str(), "rb");
    if (!file) fail("no input " + name);
    std::fseek(file, 0, SEEK_END);
    std::vector<T> values(std::ftell(file) / sizeof(T));
    std::rewind(file);
    if (std::fread(values.data(), sizeof(T), values.size(), file) != values.size()) fail(name);
    std::fclose(file);
    return values;
}

inline std::string at_level(const char *name, uint32_t level) {
    return std::string(name) + "-" + std::to_string(level);
}

// Seconds of processor time that this thread has had: what other programs take is not in it.
inline double now() {
    timespec t;
    clock_gettime(CLOCK_THREAD_CPUTIME_ID, &t);
    return double(t.tv_sec) + double(t.tv_nsec) * 1e-9;
}

// Seconds of the best of some runs; `before` is not timed.
template <class Before, class Run>
double best(int runs, Before before, Run run) {
    double least = 1e9;
    for (int i = 0; i < runs; i++) {
        before();
        double start = now();
        run();
        least = std::min(least, now() - start);
    }
    return least;
}
template <class Run>
double best(int runs, Run run) {
    return best(
        runs, [] {}, run);
}

// One row: its key, the time in the row's unit, and a number that depends on all results.
inline void row(const std::string &key, double time, uint64_t sum) {
    std::printf("%s %.6g %llu\n", key.c_str(), time, static_cast<unsigned long long>(sum));
}

// Takes a result, so that the compiler can't drop the work behind it.
inline volatile uint64_t kept;

// A row for single calls: `call(i)` makes the one on input i. The best of the pieces counts; the
// sum is the first piece's.
template <class Call>
void call_row(const char *key, size_t inputs, Call call) {
    auto piece = [&](size_t from) {
        uint64_t sum = 0;
        for (size_t i = from; i < from + PIECE; i++) sum += call(i);
        return sum;
    };
    double least = 1e9;
    for (size_t from = 0; from < inputs; from += PIECE)
        least = std::min(least, best(1, [&] { kept = piece(from); }));
    row(key, least * 1e9 / PIECE, piece(0));
}

inline uint64_t sum_of(const Bytes &bytes) {
    uint64_t sum = 0;
    for (size_t i = 0; i < bytes.size(); i++) sum += (i + 1) * bytes[i];
    return sum;
}

inline uint64_t count_of(const Bytes &mask) {
    uint64_t count = 0;
    for (uint8_t byte : mask) count += uint64_t(__builtin_popcount(byte));
    return count;
}

inline bool marked(const Bytes &mask, size_t cell) { return mask[cell / 8] >> (cell % 8) & 1; }
inline void mark(Bytes &mask, size_t cell) { mask[cell / 8] |= uint8_t(1 << (cell % 8)); }

// A point of the unit sphere.
struct Vector {
    double x, y, z;
};
inline Vector vector_of(Position p) {
    double north = radians(p.latitude), east = radians(p.longitude);
    return {cos(north) * cos(east), cos(north) * sin(east), sin(north)};
}

// The mask of the cells whose centre lies in one of the discs.
template <class Centre>
Bytes discs_mask(size_t cells, const std::vector<Disc> &discs, Centre centre) {
    std::vector<Vector> middles;
    std::vector<double> cosines;
    for (const Disc &disc : discs) {
        middles.push_back(vector_of(disc.centre));
        cosines.push_back(cos(radians(disc.radius)));
    }
    Bytes mask(cells / 8);
    for (size_t cell = 0; cell < cells; cell++) {
        Vector c = centre(cell);
        for (size_t i = 0; i < discs.size(); i++) {
            const Vector &m = middles[i];
            if (c.x * m.x + c.y * m.y + c.z * m.z < cosines[i]) continue;
            mark(mask, cell);
            break;
        }
    }
    return mask;
}

// Growing for a library that gives a cell's neighbours: each ring expands the cells that the last
// one reached. `neighbours(cell, visit)` visits them.
template <class Neighbours>
void grow(const Bytes &mask, uint32_t rings, Bytes &out, Neighbours neighbours) {
    std::vector<uint32_t> reached, next;
    for (size_t cell = 0; cell < mask.size() * 8; cell++)
        if (marked(mask, cell)) reached.push_back(cell);
    out = mask;
    for (uint32_t ring = 0; ring < rings && !reached.empty(); ring++) {
        next.clear();
        for (uint32_t cell : reached)
            neighbours(cell, [&](uint32_t other) {
                if (marked(out, other)) return;
                mark(out, other);
                next.push_back(other);
            });
        reached.swap(next);
    }
}

// The border of a region: its cells with a neighbour outside it.
template <class Neighbours>
Bytes border_of(const Bytes &region, Neighbours neighbours) {
    Bytes border(region.size());
    for (size_t cell = 0; cell < region.size() * 8; cell++)
        if (marked(region, cell))
            neighbours(cell, [&](uint32_t other) {
                if (!marked(region, other)) mark(border, cell);
            });
    return border;
}

// Filling for such a library, by the neighbours across an edge.
template <class Neighbours>
void fill(const Bytes &border, uint32_t outside, Bytes &out, Neighbours edge_neighbours) {
    Bytes seen = border;
    std::vector<uint32_t> waiting = {outside};
    mark(seen, outside);
    out.assign(border.size(), 255);
    while (!waiting.empty()) {
        uint32_t cell = waiting.back();
        waiting.pop_back();
        out[cell / 8] &= uint8_t(~(1 << (cell % 8)));
        edge_neighbours(cell, [&](uint32_t other) {
            if (marked(seen, other)) return;
            mark(seen, other);
            waiting.push_back(other);
        });
    }
}

// The rows of growing and filling for such a library.
template <class Centre, class Neighbours, class Edges>
void mask_rows(uint32_t level, size_t cells, const std::vector<Disc> &discs, uint32_t outside,
               Centre centre, Neighbours neighbours, Edges edge_neighbours) {
    Bytes mask = discs_mask(cells, discs, centre), out;
    for (uint32_t rings : ring_counts(level)) {
        double seconds = best(3, [&] { grow(mask, rings, out, neighbours); });
        row(at_level("grow", level) + "-" + std::to_string(rings), seconds * 1e3, count_of(out));
    }
    Bytes border = border_of(discs_mask(cells, {REGION}, centre), neighbours);
    if (marked(border, outside)) fail("the outside cell is marked");
    double seconds = best(3, [&] { fill(border, outside, out, edge_neighbours); });
    row(at_level("fill", level), seconds * 1e3, count_of(out));
}
