// The same work by S2 (Debian's libs2-dev). Its own types for angles are made before the timing.
// For neighbours it has one call that gives the four across an edge, and one that gives all.
//   s2 FOLDER of the inputs
#include <s2/s2cell_id.h>
#include <s2/s2latlng.h>

#include "bench.h"

namespace {

S2LatLng angles(Position p) {
    return S2LatLng::FromRadians(radians(p.latitude), radians(p.longitude));
}

void calls(const std::string &folder) {
    Bytes codes = load<uint8_t>(folder, "codes");
    std::vector<S2LatLng> places;
    std::vector<S2CellId> cells;
    for (Position p : load<Position>(folder, "positions")) {
        places.push_back(angles(p));
        cells.push_back(S2CellId(places.back()).parent(CALL_LEVEL));
    }
    size_t n = places.size();

    call_row("cell_at", n, [&](size_t i) { return S2CellId(places[i]).parent(CALL_LEVEL).id(); });
    call_row("centre", n, [&](size_t i) {
        S2LatLng centre = cells[i].ToLatLng();
        return uint64_t(centre.lat().radians() + centre.lng().radians() + 5);
    });
    call_row("step", n, [&](size_t i) {
        S2CellId four[4];
        cells[i].GetEdgeNeighbors(four);
        return four[codes[i] % 4].id();
    });
    std::vector<S2CellId> around;
    call_row("touching", n, [&](size_t i) {
        around.clear();
        cells[i].AppendAllNeighbors(CALL_LEVEL, &around);
        uint64_t sum = 0;
        for (S2CellId cell : around) sum += cell.id();
        return sum;
    });
}

void masks(const std::string &folder, uint32_t level) {
    // A cell's number in a mask: its face and place without the low bits.
    const int shift = int(61 - 2 * level);
    auto cell_of = [&](uint64_t number) {
        return S2CellId((number << shift) | (1ULL << (shift - 1)));
    };
    auto number_of = [&](S2CellId cell) { return uint32_t(cell.id() >> shift); };
    auto centre = [&](size_t number) {
        S2Point p = cell_of(number).ToPoint();
        return Vector{p.x(), p.y(), p.z()};
    };
    std::vector<S2CellId> around;
    auto neighbours = [&](uint32_t number, auto visit) {
        around.clear();
        cell_of(number).AppendAllNeighbors(int(level), &around);
        for (S2CellId cell : around) visit(number_of(cell));
    };
    auto edges = [&](uint32_t number, auto visit) {
        S2CellId four[4];
        cell_of(number).GetEdgeNeighbors(four);
        for (S2CellId cell : four) visit(number_of(cell));
    };
    mask_rows(level, size_t(6) << (2 * level), load<Disc>(folder, "discs"),
              number_of(S2CellId(angles(OUTSIDE)).parent(int(level))), centre, neighbours, edges);
}

}  // namespace

int main(int count, char **words) {
    if (count != 2) fail("s2 FOLDER");
    calls(words[1]);
    for (uint32_t level : MASK_LEVELS) masks(words[1], level);
}
