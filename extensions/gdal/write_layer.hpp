// A layer that is written, and the file of its blobs.
#pragma once

#include <vector>

#include "rows.hpp"

namespace twkb {

// Blobs on their way to a file. After a failure nothing more is written.
class Output {
  public:
    explicit Output(VSILFILE *file) : file_(file) {}

    // Puts the blob of rows after those that wait. Status POLYTWKB_DEVICE: writing has failed before.
    polytwkb_report put(const Rows &rows, uint32_t style);

    // Writes what waits; false if that fails now or has before.
    bool flush();
    bool sync();

  private:
    VSILFILE *file_;
    std::vector<uint8_t> bytes_; // its first full_ bytes are blobs that are not in the file yet
    size_t full_ = 0;
    bool hasFailed_ = false;
};

// What the options of a layer say.
struct LayerOptions {
    int precision = 7;
    bool ofField = false; // the precision of a feature is that of its field
    uint32_t style = POLYTWKB_FULL;
    bool dropsHeights = false;
};

class WriteLayer final : public OGRLayer {
  public:
    WriteLayer(const char *name, VSILFILE *file, const OGRSpatialReference *reference, const LayerOptions &options);
    ~WriteLayer() override { definition_->Release(); }

    void ResetReading() override {}
    OGRFeature *GetNextFeature() override;
    OGRFeatureDefn *GetLayerDefn() CONST_SINCE_312 override { return definition_; }
    int TestCapability(const char *what) CONST_SINCE_312 override;
    OGRErr CreateField(FieldDefn *field, int isApproximate) override;
    OGRErr ICreateFeature(OGRFeature *feature) override;
    OGRErr SyncToDisk() override { return output_.sync() ? OGRERR_NONE : OGRERR_FAILURE; }
    bool flush() { return output_.flush(); }

  private:
    OGRFeatureDefn *definition_;
    Output output_;
    const LayerOptions options_;
    Rows rows_;
    int precisionAt_ = -1, idsAt_ = -1; // fields, -1 for none
    bool warnedFields_ = false, warnedIds_ = false;
    GIntBig count_ = 0, given_ = 0; // features that are written, and all

    OGRErr refuse(const OGRFeature &feature, const std::string &why);
    bool setIds(OGRFeature &feature);
    polytwkb_report putWithIds(OGRFeature &feature);
};

} // namespace twkb
