// The rows and points of a geometry of GDAL.
#include "rows.hpp"

#include <cerrno>
#include <cmath>
#include <cstdlib>

#include "cpl_string.h"

namespace twkb {

const char *Rows::take(const OGRGeometry &geometry, int precision) {
    rows_.clear();
    numbers_.clear();
    const char *why = add(geometry, 0, precision);
    return why ? why : round(precision);
}

// The library rounds, so each coordinate is the one that all its users get.
const char *Rows::round(int precision) {
    points_.resize(numbers_.size() / 2);
    const auto rounded = polytwkb_round(numbers_.data(), numbers_.size(), precision,
                                        reinterpret_cast<int64_t *>(points_.data()), numbers_.size());
    if (rounded.status == POLYTWKB_DONE) return nullptr;
    if (rounded.status != POLYTWKB_REFUSED) return "rounding failed";
    return std::isfinite(numbers_[rounded.place]) ? "a coordinate is too large for the precision"
                                                  : "a coordinate is no finite number";
}

bool Rows::setIds(const char *text) {
    const CPLStringList ids(CSLTokenizeString2(text, "[, ]", 0));
    int at = 0;
    for (size_t row = 1; row < rows_.size(); ++row) {
        if (rows_[row].kind == POLYTWKB_KIND_RING) continue;
        if (at >= ids.size()) return false;
        const char *id = ids[at++];
        char *end = nullptr;
        errno = 0;
        rows_[row].id = EQUAL(id, "null") ? 0 : strtoll(id, &end, 10);
        rows_[row].has_id = end != nullptr;
        if ((end && *end) || errno) return false;
    }
    return at == ids.size();
}

void Rows::clearIds() {
    for (auto &row : rows_) row.id = row.has_id = 0;
}

void Rows::push(uint16_t kind, uint32_t depth, uint64_t points, int precision) {
    rows_.push_back({0, points, depth, kind, 0, static_cast<int8_t>(precision)});
}

const char *Rows::addPoint(const OGRPoint &point, uint32_t depth, int precision) {
    if (point.IsEmpty() && precision == POLYTWKB_NO_PRECISION)
        return "a multipoint has an empty point, which TWKB cannot say";
    push(POLYTWKB_KIND_POINT, depth, point.IsEmpty() ? 0 : 1, precision);
    if (!point.IsEmpty()) numbers_.insert(numbers_.end(), {point.getX(), point.getY()});
    return nullptr;
}

const char *Rows::addCurve(uint16_t kind, const OGRSimpleCurve &curve, uint32_t depth, int precision) {
    push(kind, depth, static_cast<uint64_t>(curve.getNumPoints()), precision);
    for (int i = 0; i < curve.getNumPoints(); ++i) numbers_.insert(numbers_.end(), {curve.getX(i), curve.getY(i)});
    return nullptr;
}

const char *Rows::addRings(const OGRPolygon &polygon, uint32_t depth, int precision) {
    push(POLYTWKB_KIND_POLYGON, depth, 0, precision);
    for (const auto *ring : polygon) addCurve(POLYTWKB_KIND_RING, *ring, depth + 1, POLYTWKB_NO_PRECISION);
    return nullptr;
}

const char *Rows::addParts(uint16_t kind, const OGRGeometry &whole, uint32_t depth, int precision, int below) {
    push(kind, depth, 0, precision);
    for (const auto *part : *whole.toGeometryCollection()) {
        if (const char *why = add(*part, depth + 1, below)) return why;
    }
    return nullptr;
}

// Adds a geometry; precision is none for a member of a multi kind.
const char *Rows::add(const OGRGeometry &geometry, uint32_t depth, int precision) {
    constexpr int none = POLYTWKB_NO_PRECISION;
    if (geometry.Is3D() && !dropsHeights_)
        return "it has heights, which TWKB files do not have here (-dim XY or -lco HEIGHTS=DROP drops them)";
    switch (wkbFlatten(geometry.getGeometryType())) {
    case wkbPoint: return addPoint(*geometry.toPoint(), depth, precision);
    case wkbLineString: return addCurve(POLYTWKB_KIND_LINESTRING, *geometry.toLineString(), depth, precision);
    case wkbPolygon: return addRings(*geometry.toPolygon(), depth, precision);
    case wkbMultiPoint: return addParts(POLYTWKB_KIND_MULTIPOINT, geometry, depth, precision, none);
    case wkbMultiLineString: return addParts(POLYTWKB_KIND_MULTILINESTRING, geometry, depth, precision, none);
    case wkbMultiPolygon: return addParts(POLYTWKB_KIND_MULTIPOLYGON, geometry, depth, precision, none);
    case wkbGeometryCollection: return addParts(POLYTWKB_KIND_COLLECTION, geometry, depth, precision, precision);
    default: return "TWKB has no such type of geometry";
    }
}

} // namespace twkb
