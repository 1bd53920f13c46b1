// A layer that is written, and the file of its blobs.
#include "write_layer.hpp"

#include <algorithm>
#include <memory>
#include <new>

namespace twkb {

namespace {

constexpr size_t kOutput = 512 * 1024; // bytes that are written at once

// Whether a field has a value. An empty text is none, as in CSV.
bool hasValue(OGRFeature &feature, int field) {
    return field >= 0 && feature.IsFieldSetAndNotNull(field) && *feature.GetFieldAsString(field);
}

} // namespace

polytwkb_report Output::put(const Rows &rows, uint32_t style) {
    polytwkb_report report{};
    report.status = POLYTWKB_DEVICE;
    while (!hasFailed_) {
        report = polytwkb_write(rows.rows().data(), rows.rows().size(), rows.points().data(), rows.points().size(),
                                bytes_.data() + full_, bytes_.size() - full_, nullptr, 0, polytwkb_standard_limits(),
                                style, 0);
        if (report.status == POLYTWKB_DONE) full_ += report.sent;
        if (report.status != POLYTWKB_TOO_SMALL || (full_ > 0 && !flush())) return report;
        bytes_.resize(std::max({kOutput, bytes_.size(), static_cast<size_t>(report.needed)}));
    }
    return report;
}

bool Output::flush() {
    const size_t size = full_;
    full_ = 0;
    if (!hasFailed_ && VSIFWriteL(bytes_.data(), 1, size, file_) != size) {
        hasFailed_ = true;
        CPLError(CE_Failure, CPLE_FileIO, "writing failed");
    }
    return !hasFailed_;
}

bool Output::sync() {
    if (flush() && VSIFFlushL(file_) != 0) {
        hasFailed_ = true;
        CPLError(CE_Failure, CPLE_FileIO, "writing failed");
    }
    return !hasFailed_;
}

WriteLayer::WriteLayer(const char *name, VSILFILE *file, const OGRSpatialReference *reference,
                       const LayerOptions &options)
    : definition_(new OGRFeatureDefn(name)), output_(file), options_(options), rows_(options.dropsHeights) {
    definition_->Reference();
    SetDescription(name);
    setReference(definition_, reference);
}

OGRFeature *WriteLayer::GetNextFeature() {
    CPLError(CE_Failure, CPLE_NotSupported, "a TWKB file that is written cannot be read");
    return nullptr;
}

int WriteLayer::TestCapability(const char *what) CONST_SINCE_312 {
    return EQUAL(what, OLCSequentialWrite) || EQUAL(what, OLCCreateField) || EQUAL(what, OLCStringsAsUTF8);
}

OGRErr WriteLayer::CreateField(FieldDefn *field, int) {
    const char *name = field->GetNameRef();
    if (EQUAL(name, kPrecisionField)) {
        precisionAt_ = definition_->GetFieldCount();
    } else if (EQUAL(name, kIdsField)) {
        idsAt_ = definition_->GetFieldCount();
    } else if (!warnedFields_) {
        CPLError(CE_Warning, CPLE_NotSupported, "TWKB has no attributes: %s and all others are left out", name);
        warnedFields_ = true;
    }
    definition_->AddFieldDefn(field);
    return OGRERR_NONE;
}

OGRErr WriteLayer::refuse(const OGRFeature &feature, const std::string &why) {
    const GIntBig fid = feature.GetFID() == OGRNullFID ? given_ - 1 : feature.GetFID();
    CPLError(CE_Failure, CPLE_NotSupported, "feature " CPL_FRMT_GIB ": %s", fid, why.c_str());
    return OGRERR_FAILURE;
}

// Gives the rows the ids of the field, which is a text, or a list of numbers.
bool WriteLayer::setIds(OGRFeature &feature) {
    const bool isText = definition_->GetFieldDefn(idsAt_)->GetType() == OFTString;
    std::unique_ptr<char, decltype(&VSIFree)> json(
        isText ? CPLStrdup(feature.GetFieldAsString(idsAt_)) : feature.GetFieldAsSerializedJSon(idsAt_), VSIFree);
    return rows_.setIds(json ? json.get() : "");
}

// Puts the rows with the ids of the feature. Ids that the geometry cannot have, as after -explodecollections, are no
// reason to lose it: they are left out, with one warning.
polytwkb_report WriteLayer::putWithIds(OGRFeature &feature) {
    if (!hasValue(feature, idsAt_)) return output_.put(rows_, options_.style);
    if (setIds(feature)) {
        const auto report = output_.put(rows_, options_.style);
        if (report.status != POLYTWKB_REFUSED) return report;
    }
    rows_.clearIds();
    const auto report = output_.put(rows_, options_.style);
    if (report.status == POLYTWKB_DONE && !warnedIds_) {
        CPLError(CE_Warning, CPLE_AppDefined,
                 "ids that do not fit their geometry are left out, as %s of feature " CPL_FRMT_GIB, kIdsField,
                 feature.GetFID());
        warnedIds_ = true;
    }
    return report;
}

OGRErr WriteLayer::ICreateFeature(OGRFeature *feature) {
    const OGRGeometry *geometry = feature->GetGeometryRef();
    ++given_;
    if (!geometry) return refuse(*feature, "it has no geometry, which TWKB cannot say");
    int precision = options_.precision;
    if (options_.ofField && hasValue(*feature, precisionAt_) &&
        !takePrecision(feature->GetFieldAsString(precisionAt_), precision))
        return refuse(*feature, "twkb_prec is not -8 to 7");
    try {
        if (const char *why = rows_.take(*geometry, precision)) return refuse(*feature, why);
        const auto report = putWithIds(*feature);
        if (report.status == POLYTWKB_REFUSED) return refuse(*feature, reasonText(report.reason));
        if (report.status != POLYTWKB_DONE)
            return refuse(*feature, report.status == POLYTWKB_MEMORY ? "out of memory" : "it is not written");
    } catch (const std::bad_alloc &) { return refuse(*feature, "out of memory"); }
    if (feature->GetFID() == OGRNullFID) feature->SetFID(count_);
    ++count_;
    return OGRERR_NONE;
}

} // namespace twkb
