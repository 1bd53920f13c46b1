// The driver on the bytes of strangers, under the address sanitizer:
//
//     fuzz COUNT SEED
//
// Random streams and tables, most of them slips of right ones, are read by features, by number and by extent, and written
// to a second file, which is then read without a fault. A crash, a fault of memory, or a written file that is refused ends
// the run.
#include <cstdio>
#include <cstdlib>
#include <random>
#include <string>
#include <vector>

#include "ogrsf_frmts.h"

extern "C" void RegisterOGRTWKB();

namespace {

using Bytes = std::vector<GByte>;

Bytes ofHex(const char *digits) {
    Bytes bytes;
    for (; digits[0]; digits += 2)
        bytes.push_back(static_cast<GByte>(strtol(std::string(digits, 2).c_str(), nullptr, 16)));
    return bytes;
}

Bytes ofText(const char *text) { return Bytes(text, text + strlen(text)); }

const Bytes kSeeds[] = {
    ofHex("04070b04020206020e1004020206a7022a02a3031a00c09a0c00c09a0c0104000000c09a0cc09a0c00bf9a0cbf9a0c"
          "620309020802080202020808011200"),
    ofHex("a20323e7ce870ca8aa4ca0fcd50380813a03bfa4bb0ba0fcd503ef9309c0ed1ab79643c0931f"),
    ofHex("06070d02000200020608020102020000"),
    ofHex("03031300080008020300000800070803020502000102"),
    ofHex("07070f02000200020e010102020202021200"),
    ofHex("a20014"),
};
const Bytes kTable = ofText("depth,kind,id,precision,polyline\n0,linestring,,5,_p~iF~ps|U_ulLnnqC_mqNvxq`@\n"
                            "0,multipoint,,0,\n1,point,7,,AC\n1,point,-8,,?A\n0,collection,,2,\n1,point,,3,\n");

std::mt19937_64 chance;

size_t below(size_t count) { return static_cast<size_t>(chance() % count); }

void slip(Bytes &bytes) {
    if (bytes.empty()) return;
    const size_t at = below(bytes.size());
    switch (below(5)) {
    case 0: bytes.resize(at); break;
    case 1: bytes[at] ^= static_cast<GByte>(1u << below(8)); break;
    case 2: bytes[at] = static_cast<GByte>(chance()); break;
    case 3: bytes.insert(bytes.begin() + static_cast<std::ptrdiff_t>(at), 1 + below(9), below(2) ? 0xff : 0x80); break;
    default: bytes.insert(bytes.end(), bytes.begin() + static_cast<std::ptrdiff_t>(at), bytes.end()); break;
    }
}

Bytes someBytes(bool isTable) {
    Bytes bytes = isTable ? kTable : Bytes();
    for (size_t parts = isTable ? 0 : 1 + below(3); parts > 0; --parts) {
        const Bytes &seed = kSeeds[below(sizeof kSeeds / sizeof *kSeeds)];
        bytes.insert(bytes.end(), seed.begin(), seed.end());
    }
    for (size_t slips = below(4); slips > 0; --slips) slip(bytes);
    return bytes;
}

void put(const char *name, const Bytes &bytes) {
    VSILFILE *file = VSIFOpenL(name, "wb");
    if (!file || VSIFWriteL(bytes.data(), 1, bytes.size(), file) != bytes.size() || VSIFCloseL(file) != 0) exit(2);
}

// Reads all features, and copies them to a file; how many there are.
GIntBig copied(OGRLayer &layer, const char *name) {
    auto *driver = GetGDALDriverManager()->GetDriverByName("TWKB");
    GDALDataset *made = driver->Create(name, 0, 0, 0, GDT_Unknown, nullptr);
    char option[] = "PRECISION=FIELD", *options[] = {option, nullptr};
    OGRLayer *to = made->CreateLayer("to", nullptr, wkbUnknown, options);
    for (int field = 0; field < layer.GetLayerDefn()->GetFieldCount(); ++field)
        to->CreateField(layer.GetLayerDefn()->GetFieldDefn(field));
    GIntBig count = 0;
    for (const auto &feature : layer) {
        OGRFeature copy(to->GetLayerDefn());
        copy.SetFrom(feature.get());
        count += to->CreateFeature(&copy) == OGRERR_NONE;
    }
    GDALClose(made);
    return count;
}

void tryFile(const char *name, bool isRight) {
    GDALDataset *data = GDALDataset::Open(name, GDAL_OF_VECTOR);
    if (!data) return;
    OGRLayer *layer = data->GetLayer(0);
    OGREnvelope extent;
    CPLErrorReset();
    (void)!layer->GetExtent(&extent, TRUE);
    const GIntBig count = layer->GetFeatureCount();
    OGRFeature::DestroyFeature(layer->GetFeature(count / 2));
    if (isRight && CPLGetLastErrorType() == CE_Failure) {
        printf("a written file is refused: %s\n", CPLGetLastErrorMsg());
        exit(1);
    }
    if (!isRight) {
        const GIntBig written = copied(*layer, "/vsimem/copy.twkb");
        if (written > count) exit(3);
        tryFile("/vsimem/copy.twkb", true);
    }
    GDALClose(data);
}

} // namespace

int main(int, char **words) {
    const size_t inputs = static_cast<size_t>(strtoull(words[1], nullptr, 10));
    chance.seed(strtoull(words[2], nullptr, 10));
    RegisterOGRTWKB();
    CPLPushErrorHandler(CPLQuietErrorHandler);
    for (size_t number = 0; number < inputs; ++number) {
        const bool isTable = below(4) == 0;
        put("/vsimem/given.twkb", someBytes(isTable));
        tryFile(isTable ? "TWKB_TABLE:/vsimem/given.twkb" : "/vsimem/given.twkb", false);
    }
    CPLPopErrorHandler();
    GDALDestroyDriverManager();
    printf("%zu inputs\n", inputs);
    return 0;
}
