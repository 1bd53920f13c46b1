// A layer of a stream that is read.
#include "read_layer.hpp"

namespace twkb {

ReadLayer::ReadLayer(const std::string &name, Source &source, const OGRSpatialReference *reference, bool hasFields)
    : onward_(source), random_(source), definition_(new OGRFeatureDefn(name.c_str())), hasFields_(hasFields) {
    definition_->Reference();
    SetDescription(name.c_str());
    definition_->SetGeomType(wkbUnknown);
    setReference(definition_, reference);
    OGRFieldDefn precision(kPrecisionField, OFTInteger), ids(kIdsField, OFTString);
    if (hasFields) {
        definition_->AddFieldDefn(&precision);
        definition_->AddFieldDefn(&ids);
    }
}

int ReadLayer::TestCapability(const char *what) CONST_SINCE_312 {
    return EQUAL(what, OLCRandomRead) || EQUAL(what, OLCStringsAsUTF8) || EQUAL(what, OLCIgnoreFields) ||
           (EQUAL(what, OLCFastFeatureCount) && total_ >= 0 && !m_poFilterGeom && !m_poAttrQuery) ||
           (EQUAL(what, OLCFastGetExtent) && total_ >= 0);
}

OGRErr ReadLayer::ICreateFeature(OGRFeature *) {
    CPLError(CE_Failure, CPLE_NotSupported,
             "nothing is appended to a TWKB file: write another one, and join the two by cat");
    return OGRERR_UNSUPPORTED_OPERATION;
}

OGRFeature *ReadLayer::GetFeature(GIntBig fid) {
    Place place;
    return fid >= 0 && random_.find(fid, place) ? feature(random_, place) : nullptr;
}

GIntBig ReadLayer::GetFeatureCount(int force) {
    if (m_poFilterGeom || m_poAttrQuery) return OGRLayer::GetFeatureCount(force);
    return scan(force != 0) ? total_ : -1;
}

// Counts the geometries and takes their extent, without making any.
bool ReadLayer::scan(bool force) {
    if (total_ >= 0 || !force) return total_ >= 0;
    Place place;
    GIntBig count = 0;
    for (random_.rewind(); random_.next(place); ++count) extent_.Merge(envelopeAt(random_, place));
    total_ = count;
    return true;
}

OGRErr ReadLayer::wholeExtent(OGREnvelope *extent, bool force) {
    if (!scan(force) || !extent_.IsInit()) return OGRERR_FAILURE;
    *extent = extent_;
    return OGRERR_NONE;
}

#if GDAL_SINCE(11)
OGRErr ReadLayer::IGetExtent(int, OGREnvelope *extent, bool force) { return wholeExtent(extent, force); }
#else
OGRErr ReadLayer::GetExtent(OGREnvelope *extent, int force) { return wholeExtent(extent, force != 0); }
#endif

// The next feature that the box of the filter does not leave out; GDAL's own code judges the rest of the filters.
OGRFeature *ReadLayer::GetNextRawFeature() {
    Place place;
    while (onward_.next(place)) {
        if (!m_poFilterGeom || envelopeAt(onward_, place).Intersects(m_sFilterEnvelope)) return feature(onward_, place);
    }
    return nullptr;
}

OGRFeature *ReadLayer::feature(Stream &stream, const Place &place) {
    auto made = std::make_unique<OGRFeature>(definition_);
    made->SetFID(place.fid);
    if (!definition_->IsGeometryIgnored() || m_poFilterGeom) { // GDAL's filter asks for it
        auto geometry = geometryAt(stream, place);
        if (!geometry) {
            stream.fail("GDAL refuses geometry " + std::to_string(place.fid), 0);
            return nullptr;
        }
        geometry->assignSpatialReference(definition_->GetGeomFieldDefn(0)->GetSpatialRef());
        if (made->SetGeometryDirectly(geometry.release()) != OGRERR_NONE) return nullptr;
    }
    if (!hasFields_) return made.release();
    if (!definition_->GetFieldDefn(0)->IsIgnored()) made->SetField(0, precisionAt(stream, place));
    if (definition_->GetFieldDefn(1)->IsIgnored()) return made.release();
    const std::string ids = idsAt(stream, place);
    if (!ids.empty()) made->SetField(1, ids.c_str());
    return made.release();
}

} // namespace twkb
