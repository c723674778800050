// The same work by HEALPix (Debian's libhealpix-cxx-dev), nested numbering. Its own types for
// angles are made before the timing. It has one call for neighbours, which gives all eight.
//   healpix FOLDER of the inputs
#include <healpix_cxx/healpix_base.h>

#include "bench.h"

namespace {

// Angles as HEALPix takes them: from the north pole, and to the east.
pointing angles(Position p) {
    double east = radians(p.longitude);
    return {M_PI / 2 - radians(p.latitude), east < 0 ? east + 2 * M_PI : east};
}

void calls(const std::string &folder) {
    T_Healpix_Base<int64_t> base(CALL_LEVEL, NEST);
    Bytes codes = load<uint8_t>(folder, "codes");
    std::vector<pointing> places;
    std::vector<int64_t> pixels;
    for (Position p : load<Position>(folder, "positions")) {
        places.push_back(angles(p));
        pixels.push_back(base.ang2pix(places.back()));
    }
    size_t n = places.size();

    fix_arr<int64_t, 8> around;
    call_row("cell_at", n, [&](size_t i) { return uint64_t(base.ang2pix(places[i])); });
    call_row("centre", n, [&](size_t i) {
        pointing centre = base.pix2ang(pixels[i]);
        return uint64_t(centre.theta + centre.phi);
    });
    call_row("step", n, [&](size_t i) {
        base.neighbors(pixels[i], around);
        return uint64_t(around[codes[i]]);
    });
    call_row("touching", n, [&](size_t i) {
        base.neighbors(pixels[i], around);
        uint64_t sum = 0;
        for (size_t j = 0; j < 8; j++) sum += uint64_t(around[j]);
        return sum;
    });
}

void masks(const std::string &folder, uint32_t level) {
    T_Healpix_Base<int> base(int(level), NEST);
    auto centre = [&](size_t pixel) {
        vec3 v = base.pix2vec(int(pixel));
        return Vector{v.x, v.y, v.z};
    };
    // Of the eight, the neighbours across an edge have even places; -1 stands where there is none.
    auto visit_each = [&](uint32_t pixel, size_t stride, auto visit) {
        fix_arr<int, 8> around;
        base.neighbors(int(pixel), around);
        for (size_t j = 0; j < 8; j += stride)
            if (around[j] >= 0) visit(uint32_t(around[j]));
    };
    auto neighbours = [&](uint32_t pixel, auto visit) { visit_each(pixel, 1, visit); };
    auto edges = [&](uint32_t pixel, auto visit) { visit_each(pixel, 2, visit); };
    mask_rows(level, size_t(base.Npix()), load<Disc>(folder, "discs"),
              uint32_t(base.ang2pix(angles(OUTSIDE))), centre, neighbours, edges);
}

}  // namespace

int main(int count, char **words) {
    if (count != 2) fail("healpix FOLDER");
    calls(words[1]);
    for (uint32_t level : MASK_LEVELS) masks(words[1], level);
}
