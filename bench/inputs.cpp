// Writes the inputs that all programs of the benchmark read. Random numbers are the same each time.
//   inputs FOLDER
#include "../include/ticklocust.h"
#include "bench.h"

namespace {

constexpr size_t CALLS = 1 << 21;
constexpr size_t DISCS = 400;

std::string folder;

// splitmix64
uint64_t draw() {
    static uint64_t state = 20250101;
    uint64_t z = state += 0x9E3779B97F4A7C15;
    z = (z ^ (z >> 30)) * 0xBF58476D1CE4E5B9;
    z = (z ^ (z >> 27)) * 0x94D049BB133111EB;
    return z ^ (z >> 31);
}

uint32_t below(uint32_t bound) { return uint32_t(draw() % bound); }

// Evenly spread over the globe.
Position position() {
    double height = double(draw() >> 11) / double(1ULL << 52) - 1;
    auto latitude = int32_t(asin(height) * (180e6 / M_PI));
    return {latitude, int32_t(below(360'000'000)) - 180'000'000};
}

void accepted(uint32_t said) {
    if (said) fail("refused " + std::to_string(said));
}

template <class T>
void save(const std::string &name, const std::vector<T> &values) {
    std::FILE *file = std::fopen((folder + "/" + name).c_str(), "wb");
    if (!file) fail("can't write " + name);
    size_t written = std::fwrite(values.data(), sizeof(T), values.size(), file);
    if (std::fclose(file) || written != values.size()) fail("can't write " + name);
}

// Positions, and for the cell of each a code that exists there.
void save_calls() {
    std::vector<Position> positions;
    Bytes codes;
    for (size_t i = 0; i < CALLS; i++) {
        Position p = position();
        uint32_t cell, to, code;
        accepted(ticklocust_cell_at(CALL_LEVEL, p.latitude, p.longitude, &cell));
        do code = below(8);
        while (ticklocust_step(CALL_LEVEL, cell, code, &to));
        positions.push_back(p);
        codes.push_back(uint8_t(code));
    }
    save("positions", positions);
    save("codes", codes);
}

// A random walk, as cells and in the stored form.
void save_border() {
    std::vector<uint32_t> cells = {below(8U << (2 * BORDER_LEVEL))};
    std::vector<uint8_t> bytes = {BORDER_LEVEL};
    for (uint32_t number : {cells[0], CODES}) {
        for (; number >= 128; number /= 128) bytes.push_back(uint8_t(number % 128 + 128));
        bytes.push_back(uint8_t(number));
    }
    size_t front = bytes.size();
    bytes.resize(front + CODES * 3 / 8);
    for (size_t i = 0; i < CODES; i++) {
        uint32_t code, to;
        do code = below(8);
        while (ticklocust_step(BORDER_LEVEL, cells.back(), code, &to));
        cells.push_back(to);
        for (size_t bit = 0; bit < 3; bit++) {
            size_t place = 3 * i + bit;
            bytes[front + place / 8] |= uint8_t((code >> bit & 1) << (place % 8));
        }
    }
    save("border-cells", cells);
    save("border-bytes", bytes);
}

// Masks of the discs and of a region's border, and a chart with its new day.
void save_level(uint32_t level, const std::vector<Disc> &discs) {
    size_t bytes = size_t(1) << (2 * level), cells = 8 * bytes;
    auto centre = [&](size_t cell) {
        Position p;
        accepted(ticklocust_centre(level, uint32_t(cell), &p.latitude, &p.longitude));
        return vector_of(p);
    };
    auto touching = [&](size_t cell, auto visit) {
        uint32_t list[12], count;
        accepted(ticklocust_touching(level, uint32_t(cell), list, 12, &count));
        for (uint32_t i = 0; i < count; i++) visit(list[i]);
    };
    Bytes mask = discs_mask(cells, discs, centre), cloud, ages;
    save(at_level("discs", level), mask);
    save(at_level("border", level), border_of(discs_mask(cells, {REGION}, centre), touching));

    // Clouds over about half of the globe; one new temperature in 16 is no number.
    grow(mask, 1U << (level - 5), cloud, touching);
    std::vector<float> news, temperatures;
    for (size_t cell = 0; cell < cells; cell++) {
        news.push_back(below(16) ? float(below(3400)) / 100 - 2 : NAN);
        ages.push_back(below(4) ? uint8_t(below(15)) : 255);
        temperatures.push_back(ages.back() == 255 ? 0 : float(below(3400)) / 100 - 2);
    }
    save(at_level("cloud", level), cloud);
    save(at_level("news", level), news);
    save(at_level("temperatures", level), temperatures);
    save(at_level("ages", level), ages);
}

}  // namespace

int main(int count, char **words) {
    if (count != 2) fail("inputs FOLDER");
    folder = words[1];
    save_calls();
    save_border();
    std::vector<Disc> discs;
    for (size_t i = 0; i < DISCS; i++)
        discs.push_back({position(), 1'000'000 + int32_t(below(1'000'000))});
    save("discs", discs);
    for (uint32_t level : MASK_LEVELS) save_level(level, discs);
}
