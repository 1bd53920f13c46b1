// What a layer gives of a geometry in the arrays of a stream.
#include "geometry.hpp"

#include <algorithm>

namespace twkb {

namespace {

// Makes a geometry, row by row.
class Builder {
  public:
    Builder(const Stream &stream, const Place &place)
        : stream_(stream), row_(place.row), end_(place.rowEnd), point_(place.point) {}

    std::unique_ptr<OGRGeometry> build(int precision);

  private:
    const Stream &stream_;
    size_t row_, end_, point_;

    std::unique_ptr<OGRGeometry> ownPoints(const polytwkb_row &row, int precision);
    bool addParts(OGRGeometry &whole, uint32_t depth, int precision);
};

// A geometry of the kind of a row, without points and parts.
std::unique_ptr<OGRGeometry> emptyOf(uint16_t kind) {
    switch (kind) {
    case POLYTWKB_KIND_POINT: return std::make_unique<OGRPoint>();
    case POLYTWKB_KIND_LINESTRING: return std::make_unique<OGRLineString>();
    case POLYTWKB_KIND_RING: return std::make_unique<OGRLinearRing>();
    case POLYTWKB_KIND_POLYGON: return std::make_unique<OGRPolygon>();
    case POLYTWKB_KIND_MULTIPOINT: return std::make_unique<OGRMultiPoint>();
    case POLYTWKB_KIND_MULTILINESTRING: return std::make_unique<OGRMultiLineString>();
    case POLYTWKB_KIND_MULTIPOLYGON: return std::make_unique<OGRMultiPolygon>();
    default: return std::make_unique<OGRGeometryCollection>();
    }
}

// Takes a row that has points of its own.
std::unique_ptr<OGRGeometry> Builder::ownPoints(const polytwkb_row &row, int precision) {
    auto made = emptyOf(row.kind);
    const auto x = [&](size_t at) { return fromUnits(stream_.points[at].x, precision); };
    const auto y = [&](size_t at) { return fromUnits(stream_.points[at].y, precision); };
    const int count = static_cast<int>(row.points); // at most 2^24
    if (row.kind == POLYTWKB_KIND_POINT && count > 0) {
        made = std::make_unique<OGRPoint>(x(point_), y(point_));
    } else if (row.kind != POLYTWKB_KIND_POINT) {
        auto *curve = static_cast<OGRSimpleCurve *>(made.get());
        curve->setNumPoints(count, FALSE);
        if (curve->getNumPoints() != count) return nullptr;
        for (int i = 0; i < count; ++i)
            curve->setPoint(i, x(point_ + static_cast<size_t>(i)), y(point_ + static_cast<size_t>(i)));
    }
    point_ += row.points;
    return made;
}

// Takes the rows below a row, and adds what they are.
bool Builder::addParts(OGRGeometry &whole, uint32_t depth, int precision) {
    const bool isPolygon = wkbFlatten(whole.getGeometryType()) == wkbPolygon;
    while (row_ < end_ && stream_.rows[row_].depth > depth) {
        auto part = build(precision);
        if (!part) return false;
        const OGRErr error = isPolygon ? whole.toPolygon()->addRingDirectly(part->toLinearRing())
                                       : whole.toGeometryCollection()->addGeometryDirectly(part.get());
        if (error != OGRERR_NONE) return false;
        (void)part.release(); // it is its whole's now
    }
    return true;
}

std::unique_ptr<OGRGeometry> Builder::build(int precision) {
    const polytwkb_row row = stream_.rows[row_++];
    if (row.precision != POLYTWKB_NO_PRECISION) precision = row.precision;
    if (row.kind == POLYTWKB_KIND_POINT || row.kind == POLYTWKB_KIND_LINESTRING || row.kind == POLYTWKB_KIND_RING)
        return ownPoints(row, precision);
    auto made = emptyOf(row.kind);
    return addParts(*made, row.depth, precision) ? std::move(made) : nullptr;
}

} // namespace

std::unique_ptr<OGRGeometry> geometryAt(const Stream &stream, const Place &place) {
    return Builder(stream, place).build(0);
}

OGREnvelope envelopeAt(const Stream &stream, const Place &place) {
    OGREnvelope all;
    int precision = 0;
    size_t point = place.point;
    for (size_t at = place.row; at < place.rowEnd; ++at) {
        const auto &row = stream.rows[at];
        if (row.precision != POLYTWKB_NO_PRECISION) precision = row.precision;
        for (const size_t end = point + row.points; point < end; ++point)
            all.Merge(fromUnits(stream.points[point].x, precision), fromUnits(stream.points[point].y, precision));
    }
    return all;
}

int precisionAt(const Stream &stream, const Place &place) {
    int precision = stream.rows[place.row].precision;
    bool hasMembers = false;
    for (size_t at = place.row + 1; at < place.rowEnd; ++at) {
        const int own = stream.rows[at].precision;
        if (own == POLYTWKB_NO_PRECISION) continue;
        precision = hasMembers ? std::max(precision, own) : own;
        hasMembers = true;
    }
    return precision;
}

std::string idsAt(const Stream &stream, const Place &place) {
    std::string ids;
    bool hasIds = false;
    for (size_t at = place.row + 1; at < place.rowEnd; ++at) {
        const auto &row = stream.rows[at];
        if (row.kind == POLYTWKB_KIND_RING) continue;
        ids += ids.empty() ? "[" : ",";
        ids += row.has_id ? std::to_string(row.id) : "null";
        hasIds = hasIds || row.has_id;
    }
    return hasIds ? ids + "]" : std::string();
}

} // namespace twkb
