// The time that a format of GDAL takes for all features of a file, in seconds of the processor, user and system:
//
//     gdal read FILE                                   makes each feature
//     gdal write FROM DRIVER FILE [NAME=VALUE ..]      writes the features of FROM, which are in memory before
#include <cstdio>
#include <cstring>
#include <ctime>
#include <memory>
#include <vector>

#include "ogrsf_frmts.h"

namespace {

using Dataset = std::unique_ptr<GDALDataset, decltype(&GDALClose)>;

double seconds() { return static_cast<double>(clock()) / CLOCKS_PER_SEC; }

Dataset opened(const char *name) { return Dataset(GDALDataset::Open(name, GDAL_OF_VECTOR), GDALClose); }

// The points of all features.
long long readAll(OGRLayer &layer) {
    long long points = 0;
    for (const auto &feature : layer) points += feature->GetGeometryRef()->toLineString()->getNumPoints();
    return points;
}

// Writes features to a new file, and closes it; false if one is refused.
bool writeAll(const std::vector<OGRFeatureUniquePtr> &features, const char *driver, const char *file, char **options) {
    Dataset made(GetGDALDriverManager()->GetDriverByName(driver)->Create(file, 0, 0, 0, GDT_Unknown, nullptr),
                 GDALClose);
    OGRLayer *layer = made->CreateLayer("routes", nullptr, wkbLineString, options);
    if (!layer || layer->StartTransaction() != OGRERR_NONE) return false;
    for (const auto &feature : features) {
        OGRFeature copy(layer->GetLayerDefn());
        if (copy.SetGeometry(feature->GetGeometryRef()) != OGRERR_NONE) return false;
        if (layer->CreateFeature(&copy) != OGRERR_NONE) return false;
    }
    return layer->CommitTransaction() == OGRERR_NONE;
}

} // namespace

int main(int count, char **words) {
    GDALAllRegister();
    const bool isReading = count == 3 && !strcmp(words[1], "read");
    if (!isReading && (count < 5 || strcmp(words[1], "write") != 0)) return 2;
    double begin = seconds();
    const Dataset from = opened(words[2]);
    if (!from) return 1;
    if (isReading) {
        fprintf(stderr, "%lld points\n", readAll(*from->GetLayer(0)));
    } else {
        std::vector<OGRFeatureUniquePtr> features;
        for (auto &feature : *from->GetLayer(0)) features.push_back(std::move(feature));
        begin = seconds();
        if (!writeAll(features, words[3], words[4], words + 5)) return 1;
    }
    printf("%.3f\n", seconds() - begin);
    return 0;
}
