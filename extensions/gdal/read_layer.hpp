// A layer of a stream that is read.
#pragma once

#include <memory>

#include "geometry.hpp"

namespace twkb {

class ReadLayer final : public OGRLayer, public OGRGetNextFeatureThroughRaw<ReadLayer> {
  public:
    // A layer over a source, which lives longer. With fields each feature has its precision and its ids.
    ReadLayer(const std::string &name, Source &source, const OGRSpatialReference *reference, bool hasFields);
    ~ReadLayer() override { definition_->Release(); }

    void ResetReading() override { onward_.rewind(); }
    OGRFeatureDefn *GetLayerDefn() CONST_SINCE_312 override { return definition_; }
    DEFINE_GET_NEXT_FEATURE_THROUGH_RAW(ReadLayer)
    int TestCapability(const char *what) CONST_SINCE_312 override;
    OGRErr ICreateFeature(OGRFeature *) override;
    OGRFeature *GetFeature(GIntBig fid) override;
    GIntBig GetFeatureCount(int force) override;
#if GDAL_SINCE(11)
    OGRErr IGetExtent(int field, OGREnvelope *extent, bool force) override;
#else
    OGRErr GetExtent(int field, OGREnvelope *extent, int force) override {
        return OGRLayer::GetExtent(field, extent, force);
    }
    OGRErr GetExtent(OGREnvelope *extent, int force) override;
#endif

  private:
    friend class OGRGetNextFeatureThroughRaw<ReadLayer>;
    Stream onward_, random_;
    OGRFeatureDefn *definition_;
    const bool hasFields_;
    GIntBig total_ = -1; // -1: not known yet
    OGREnvelope extent_;

    bool scan(bool force);
    OGRErr wholeExtent(OGREnvelope *extent, bool force);
    OGRFeature *GetNextRawFeature();
    OGRFeature *feature(Stream &stream, const Place &place);
};

} // namespace twkb
