// A stream of blobs, read window by window.
#include "stream.hpp"

#include <algorithm>
#include <cstring>
#include <new>

namespace twkb {

namespace {

constexpr size_t kWindow = 256 * 1024;       // bytes that are read at once
constexpr size_t kLongest = size_t(1) << 30; // of one geometry: more than the limits allow in canonical form

// Makes an array at least as long as this; false if there is no memory.
template <class Array> bool grow(Array &array, size_t size) {
    try {
        if (array.size() < size) array.resize(size);
    } catch (const std::bad_alloc &) { return false; }
    return true;
}

} // namespace

void setReference(OGRFeatureDefn *definition, const OGRSpatialReference *reference) {
    if (!reference || reference->IsEmpty()) return;
    auto *own = reference->Clone();
    own->SetAxisMappingStrategy(OAMS_TRADITIONAL_GIS_ORDER);
    definition->GetGeomFieldDefn(0)->SetSpatialRef(own);
    own->Release();
}

bool Stream::next(Place &place) {
    if (row_ >= counts_.rows && !load()) return false;
    place = {fid_++, row_, row_, point_};
    do point_ += rows[row_++].points;
    while (row_ < counts_.rows && rows[row_].depth > 0);
    place.rowEnd = row_;
    return true;
}

bool Stream::find(GIntBig fid, Place &place) {
    auto &marks = source_.marks;
    if (fid < windowFid_) // the windows before this one all have marks
        rewind();
    auto mark = std::upper_bound(marks.begin(), marks.end(), fid, [](GIntBig f, const Mark &m) { return f < m.fid; });
    if (mark != marks.begin() && (--mark)->fid > windowFid_)
        start(*mark);
    else
        row_ = 0, point_ = 0, fid_ = windowFid_;
    while (next(place)) {
        if (place.fid == fid) return true;
    }
    return false;
}

void Stream::start(const Mark &mark) {
    offset_ = mark.offset;
    windowFid_ = fid_ = mark.fid;
    row_ = point_ = begin_ = end_ = 0;
    counts_ = {};
}

bool Stream::fail(const std::string &why, uint64_t place) {
    CPLError(CE_Failure, CPLE_AppDefined, "%s: byte " CPL_FRMT_GUIB ": %s (after " CPL_FRMT_GIB " geometries)",
             source_.name.c_str(), static_cast<GUIntBig>(offset_ + place), why.c_str(), windowFid_);
    return false;
}

// At the end: false, with the fault that comes there.
bool Stream::ended() {
    if (!source_.fault.empty())
        CPLError(CE_Failure, CPLE_AppDefined, "%s: %s (after " CPL_FRMT_GIB " geometries)", source_.name.c_str(),
                 source_.fault.c_str(), windowFid_);
    return false;
}

// Reads on until the window is full; isEnd: the file ends in it.
bool Stream::fill(size_t window, bool &isEnd) {
    isEnd = false;
    if (end_ - begin_ >= window) return true;
    if (begin_ > 0) memmove(bytes_.data(), bytes_.data() + begin_, end_ - begin_);
    end_ -= begin_;
    begin_ = 0;
    if (!grow(bytes_, window)) return fail("out of memory", 0);
    if (VSIFSeekL(source_.file, offset_ + end_, SEEK_SET) != 0)
        return fail("the input cannot be read again from here", 0);
    size_t got = 0;
    do end_ += got = VSIFReadL(bytes_.data() + end_, 1, window - end_, source_.file);
    while (got > 0 && end_ < window);
    isEnd = end_ < window;
#if GDAL_SINCE(10)
    if (isEnd && VSIFErrorL(source_.file)) return fail("reading failed", end_);
#endif
    return !isEnd || VSIFEofL(source_.file) || fail("reading failed", end_);
}

// Reads the geometries of so many bytes into the arrays. One geometry has no more rows and points than the limits say, and
// a usual window has room for all.
bool Stream::read(size_t length) {
    const polytwkb_limits limits = polytwkb_standard_limits();
    const uint32_t flags = length > kWindow ? POLYTWKB_STOP_IF_FULL : 0; // of a larger window one geometry is enough
    const auto once = [&] {
        return polytwkb_read(bytes_.data() + begin_, length, rows.data(), rows.size(), points.data(), points.size(),
                             nullptr, 0, limits, flags);
    };
    counts_ = once();
    if (counts_.status != POLYTWKB_TOO_SMALL || (counts_.done > 0 && length > kWindow)) return true;
    if (!grow(rows, std::min<uint64_t>(counts_.needed_rows, limits.nodes)) ||
        !grow(points, std::min<uint64_t>(counts_.needed_points, limits.points)))
        return fail("out of memory", 0);
    counts_ = once();
    return true;
}

// Reads the geometries after those of this window. A window is made larger until a geometry is complete in it.
bool Stream::load() {
    begin_ += counts_.taken;
    offset_ += counts_.taken;
    counts_ = {};
    row_ = point_ = 0;
    windowFid_ = fid_;
    for (size_t window = kWindow; window <= kLongest; window *= 2) {
        bool isEnd = false;
        if (!fill(window, isEnd)) return false;
        if (end_ == begin_) return ended();
        if (!read(std::min(window, end_ - begin_))) return false;
        if (counts_.done > 0) {
            if (source_.marks.empty() || source_.marks.back().fid < windowFid_)
                source_.marks.push_back({windowFid_, offset_});
            return true;
        }
        if (counts_.status == POLYTWKB_MEMORY) return fail("out of memory", 0);
        if (counts_.status != POLYTWKB_REFUSED) return fail("the library does not read it", 0); // never seen
        if (counts_.reason != POLYTWKB_BLOB_TRUNCATED || isEnd) return fail(reasonText(counts_.reason), counts_.place);
    }
    return fail("a geometry is too long", 0);
}

} // namespace twkb
