// Times the library by its C interface.
//   ticklocust FOLDER of the inputs
#include "../include/ticklocust.h"

#include <cstring>

#include "bench.h"

namespace {

std::string folder;
uint32_t refused = 0;  // every returned number is added here and must be 0

void calls() {
    auto positions = load<Position>(folder, "positions");
    Bytes codes = load<uint8_t>(folder, "codes");
    size_t n = positions.size();
    std::vector<uint32_t> cells(n);
    for (size_t i = 0; i < n; i++)
        refused |= ticklocust_cell_at(CALL_LEVEL, positions[i].latitude, positions[i].longitude,
                                      &cells[i]);

    call_row("cell_at", n, [&](size_t i) {
        uint32_t cell = 0;
        refused |=
            ticklocust_cell_at(CALL_LEVEL, positions[i].latitude, positions[i].longitude, &cell);
        return cell;
    });
    call_row("centre", n, [&](size_t i) {
        int32_t latitude = 0, longitude = 0;
        refused |= ticklocust_centre(CALL_LEVEL, cells[i], &latitude, &longitude);
        return uint32_t(latitude) + uint32_t(longitude);
    });
    call_row("step", n, [&](size_t i) {
        uint32_t to = 0;
        refused |= ticklocust_step(CALL_LEVEL, cells[i], codes[i], &to);
        return to;
    });
    call_row("touching", n, [&](size_t i) {
        uint32_t list[12], count = 0;
        refused |= ticklocust_touching(CALL_LEVEL, cells[i], list, 12, &count);
        uint64_t sum = count;
        for (uint32_t cell : list) sum += cell;
        return sum;
    });
}

void masks(uint32_t level) {
    Bytes mask = load<uint8_t>(folder, at_level("discs", level));
    Bytes border = load<uint8_t>(folder, at_level("border", level));
    size_t bytes = mask.size();
    Bytes out(bytes), work(bytes);
    for (uint32_t rings : ring_counts(level)) {
        double seconds = best(3, [&] {
            refused |= ticklocust_grow(level, rings, mask.data(), bytes, out.data(), bytes,
                                       work.data(), bytes);
        });
        row(at_level("grow", level) + "-" + std::to_string(rings), seconds * 1e3, sum_of(out));
    }
    uint32_t outside = 0;
    refused |= ticklocust_cell_at(level, OUTSIDE.latitude, OUTSIDE.longitude, &outside);
    double seconds = best(3, [&] {
        refused |= ticklocust_fill(level, border.data(), bytes, outside, out.data(), bytes);
    });
    row(at_level("fill", level), seconds * 1e3, sum_of(out));
}

uint32_t bits_of(float value) {
    uint32_t bits;
    std::memcpy(&bits, &value, sizeof bits);
    return bits;
}

void chart(uint32_t level) {
    Bytes cloud = load<uint8_t>(folder, at_level("cloud", level));
    auto news = load<float>(folder, at_level("news", level));
    const auto temperatures = load<float>(folder, at_level("temperatures", level));
    const Bytes ages = load<uint8_t>(folder, at_level("ages", level));
    std::vector<float> t;
    Bytes a;
    size_t cells = news.size();
    uint32_t count = 0;
    float coldest = 0, warmest = 0;
    // Each run has the chart as it was at first.
    auto before = [&] {
        t = temperatures;
        a = ages;
    };
    double seconds = best(5, before, [&] {
        refused |= ticklocust_day(level, DAY_LIMIT, news.data(), cells, cloud.data(), cloud.size(),
                                  t.data(), cells, a.data(), cells, &count, &coldest, &warmest);
    });
    t.insert(t.end(), {coldest, warmest});
    uint64_t sum = sum_of(a) + count;
    for (float temperature : t) sum += bits_of(temperature);
    row(at_level("day", level), seconds * 1e9 / double(cells), sum);
}

void borders() {
    auto cells = load<uint32_t>(folder, "border-cells");
    Bytes bytes = load<uint8_t>(folder, "border-bytes");
    std::vector<uint32_t> read(cells.size());
    Bytes written(bytes.size());
    uint32_t level = 0, count = 0, length = 0;
    double seconds = best(5, [&] {
        refused |= ticklocust_border_read(bytes.data(), bytes.size(), read.data(), read.size(),
                                          &level, &count);
    });
    if (level != BORDER_LEVEL || count != cells.size() || read != cells) fail("border read");
    row("border_read", seconds * 1e9 / CODES, count);
    seconds = best(5, [&] {
        refused |= ticklocust_border_write(BORDER_LEVEL, cells.data(), cells.size(), written.data(),
                                           written.size(), &length);
    });
    if (length != bytes.size() || written != bytes) fail("border written");
    row("border_write", seconds * 1e9 / CODES, length);
}

}  // namespace

int main(int count, char **words) {
    if (count != 2) fail("ticklocust FOLDER");
    folder = words[1];
    calls();
    for (uint32_t level : MASK_LEVELS) masks(level);
    for (uint32_t level : MASK_LEVELS) chart(level);
    borders();
    if (refused) fail("a call was refused");
}
