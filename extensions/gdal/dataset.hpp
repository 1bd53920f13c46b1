// A file with one layer: a stream of blobs that is read or written, or a table that is read.
#pragma once

#include <memory>

#include "read_layer.hpp"
#include "write_layer.hpp"

namespace twkb {

class Dataset final : public GDALDataset {
  public:
    ~Dataset() override { closeFiles(); }
#if GDAL_SINCE(13)
    CPLErr Close(GDALProgressFunc progress, void *data) override {
        const bool isClosed = closeFiles();
        return GDALDataset::Close(progress, data) == CE_None && isClosed ? CE_None : CE_Failure;
    }
#elif GDAL_SINCE(7)
    CPLErr Close() override {
        const bool isClosed = closeFiles();
        return GDALDataset::Close() == CE_None && isClosed ? CE_None : CE_Failure;
    }
#endif
    int GetLayerCount() CONST_SINCE_312 override { return layer_ ? 1 : 0; }
#if GDAL_SINCE(12)
    const OGRLayer *GetLayer(int at) const override { return at == 0 ? layer_.get() : nullptr; }
#else
    OGRLayer *GetLayer(int at) override { return at == 0 ? layer_.get() : nullptr; }
#endif
    int TestCapability(const char *what) CONST_SINCE_312 override;
    OGRErr DeleteLayer(int at) override;
#if GDAL_SINCE(9)
    OGRLayer *ICreateLayer(const char *name, const OGRGeomFieldDefn *geometry, CSLConstList options) override;
#else
    OGRLayer *ICreateLayer(const char *name, OGRSpatialReference *reference, OGRwkbGeometryType,
                           char **options) override;
#endif

    static int identify(GDALOpenInfo *info);
    static GDALDataset *open(GDALOpenInfo *info);
    static GDALDataset *create(const char *name, int, int, int bands, GDALDataType, Options);
    static CPLErr rename(const char *newName, const char *oldName);
    static CPLErr copyFiles(const char *newName, const char *oldName);

  private:
    Source source_;
    std::string packed_; // the file in memory of a table's blobs; empty if there is none
    bool isWriting_ = false, isUpdating_ = false;
    std::unique_ptr<OGRLayer> layer_;
    WriteLayer *written_ = nullptr; // the layer, if it is written

    OGRLayer *addLayer(const char *name, const OGRSpatialReference *reference, double step, CSLConstList options);
    bool openTable(const char *name);
    bool closeFiles();
};

} // namespace twkb
