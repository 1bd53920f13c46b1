// A file with one layer: a stream of blobs that is read or written, or a table that is read.
#include "dataset.hpp"

#include <algorithm>
#include <cmath>

#include "cpl_conv.h"
#include "cpl_string.h"
#include "cpl_vsi_error.h"
#include "table.hpp"

namespace twkb {

namespace {

constexpr const char *kStreamPrefix = "TWKB:", *kTablePrefix = "TWKB_TABLE:";

bool isTable(const char *name) { return STARTS_WITH_CI(name, kTablePrefix); }

// The part of a name after its prefix; null of names without one.
const char *afterPrefix(const char *name) {
    if (isTable(name)) return name + strlen(kTablePrefix);
    return STARTS_WITH_CI(name, kStreamPrefix) ? name + strlen(kStreamPrefix) : nullptr;
}

const char *withoutPrefix(const char *name) {
    const char *after = afterPrefix(name);
    return after ? after : name;
}

// The file's name without folder and extension; also without .twkb in .twkb.gz.
std::string layerName(const char *file) {
    std::string name = CPLGetBasename(file);
    if (EQUAL(CPLGetExtension(name.c_str()), "twkb")) name = CPLGetBasename(name.c_str());
    return name.empty() ? "twkb" : name;
}

VSILFILE *opened(const char *name, const char *access) {
    VSILFILE *file = VSIFOpenExL(name, access, true);
    if (!file) CPLError(CE_Failure, CPLE_OpenFailed, "%s: %s", name, VSIGetLastErrorMsg());
    return file;
}

// Whether a file is closed without a fault, which is an error.
bool closed(VSILFILE *file) {
    if (VSIFCloseL(file) == 0) return true;
    CPLError(CE_Failure, CPLE_FileIO, "closing failed");
    return false;
}

// Decimals of a step between coordinates, 0 if that is not known; else those of degrees, or of metres.
int precisionOf(double step, const OGRSpatialReference *reference) {
    if (step > 0)
        return std::max(kLeastPrecision,
                        std::min(kMostPrecision, static_cast<int>(std::ceil(-std::log10(step) - 1e-9))));
    return reference && reference->IsProjected() ? 3 : 7;
}

// Whether two names are those of one file, also by a link.
bool isOneFile(const char *one, const char *other) {
    VSIStatBufL a, b;
    if (!strcmp(one, other)) return true;
    return VSIStatL(one, &a) == 0 && VSIStatL(other, &b) == 0 && a.st_ino != 0 && a.st_ino == b.st_ino &&
           a.st_dev == b.st_dev;
}

bool refuseOption(const char *why) {
    CPLError(CE_Failure, CPLE_IllegalArg, "%s", why);
    return false;
}

// Takes an option that is one of two words.
bool takeWord(CSLConstList options, const char *name, const char *usual, const char *other, bool &isOther) {
    const char *word = CSLFetchNameValueDef(options, name, usual);
    isOther = EQUAL(word, other);
    return isOther || EQUAL(word, usual) || refuseOption(CPLSPrintf("%s is %s or %s", name, usual, other));
}

bool takeOptions(CSLConstList options, const OGRSpatialReference *reference, double step, LayerOptions &taken) {
    const char *precision = CSLFetchNameValue(options, "PRECISION");
    bool isPlain = false;
    taken.ofField = precision && EQUAL(precision, "FIELD");
    if (!precision || taken.ofField)
        taken.precision = precisionOf(step, reference);
    else if (!takePrecision(precision, taken.precision))
        return refuseOption("PRECISION is -8 to 7, or FIELD");
    if (!takeWord(options, "STYLE", "FULL", "PLAIN", isPlain) ||
        !takeWord(options, "HEIGHTS", "REFUSE", "DROP", taken.dropsHeights))
        return false;
    taken.style = isPlain ? POLYTWKB_PLAIN : POLYTWKB_FULL;
    return true;
}

} // namespace

int Dataset::TestCapability(const char *what) CONST_SINCE_312 {
    return (EQUAL(what, ODsCCreateLayer) && isWriting_ && !layer_) ||
           (EQUAL(what, ODsCDeleteLayer) && isUpdating_ && layer_);
}

// For ogr2ogr -overwrite: the file is begun again. Nothing else is updated.
OGRErr Dataset::DeleteLayer(int at) {
    if (at != 0 || !isUpdating_ || !layer_ || !closeFiles()) return OGRERR_FAILURE;
    isUpdating_ = false;
    source_.file = opened(withoutPrefix(GetDescription()), "wb");
    isWriting_ = source_.file != nullptr;
    return isWriting_ ? OGRERR_NONE : OGRERR_FAILURE;
}

#if GDAL_SINCE(9)
OGRLayer *Dataset::ICreateLayer(const char *name, const OGRGeomFieldDefn *geometry, CSLConstList options) {
    const OGRSpatialReference *reference = geometry ? geometry->GetSpatialRef() : nullptr;
    return addLayer(name, reference, geometry ? geometry->GetCoordinatePrecision().dfXYResolution : 0, options);
}
#else
OGRLayer *Dataset::ICreateLayer(const char *name, OGRSpatialReference *reference, OGRwkbGeometryType, char **options) {
    return addLayer(name, reference, 0, options);
}
#endif

OGRLayer *Dataset::addLayer(const char *name, const OGRSpatialReference *reference, double step, CSLConstList options) {
    LayerOptions taken;
    if (!isWriting_ || layer_) {
        CPLError(CE_Failure, CPLE_NotSupported, "a TWKB file has one layer");
        return nullptr;
    }
    if (!takeOptions(options, reference, step, taken)) return nullptr;
    auto layer = std::make_unique<WriteLayer>(name, source_.file, reference, taken);
    written_ = layer.get();
    layer_ = std::move(layer);
    return layer_.get();
}

int Dataset::identify(GDALOpenInfo *info) {
    if (afterPrefix(info->pszFilename)) return TRUE;
    return info->fpL && (EQUAL(CPLGetExtension(info->pszFilename), "twkb") ||
                         EQUAL(CPLGetExtension(CPLGetBasename(info->pszFilename)), "twkb"));
}

// Packs the table that is open, and opens its blobs in place of it.
bool Dataset::openTable(const char *name) {
    const bool isPacked = packTable(source_.file, name, packed_, source_.fault);
    const bool isClosed = closed(source_.file);
    source_.file = isPacked && isClosed ? opened(packed_.c_str(), "rb") : nullptr;
    return source_.file != nullptr;
}

GDALDataset *Dataset::open(GDALOpenInfo *info) {
    if (!identify(info)) return nullptr;
    const char *name = withoutPrefix(info->pszFilename);
    auto dataset = std::make_unique<Dataset>();
    OGRSpatialReference reference;
    const char *given = CSLFetchNameValue(info->papszOpenOptions, "SRS");
    if (given && reference.SetFromUserInput(given) != OGRERR_NONE) {
        refuseOption(CPLSPrintf("SRS=%s is no spatial reference", given));
        return nullptr;
    }
    if (name != info->pszFilename)
        dataset->source_.file = opened(name, "rb");
    else
        std::swap(dataset->source_.file, info->fpL);
    dataset->source_.name = name;
    if (!dataset->source_.file || (isTable(info->pszFilename) && !dataset->openTable(name))) return nullptr;
    dataset->isUpdating_ = info->eAccess == GA_Update && !isTable(info->pszFilename);
    dataset->layer_ = std::make_unique<ReadLayer>(layerName(name), dataset->source_, &reference,
                                                  CPLFetchBool(info->papszOpenOptions, "FIELDS", true));
    return dataset.release();
}

GDALDataset *Dataset::create(const char *name, int, int, int bands, GDALDataType, Options) {
    if (bands != 0) return nullptr;
    if (isTable(name)) {
        CPLError(CE_Failure, CPLE_NotSupported, "a table is only read: polytwkb unpack writes one");
        return nullptr;
    }
    auto dataset = std::make_unique<Dataset>();
    dataset->source_.file = opened(withoutPrefix(name), "wb");
    dataset->isWriting_ = true;
    return dataset->source_.file ? dataset.release() : nullptr;
}

// GDAL's own ways to rename and copy know rasters alone.
CPLErr Dataset::rename(const char *newName, const char *oldName) {
    if (VSIRename(withoutPrefix(oldName), withoutPrefix(newName)) == 0) return CE_None;
    CPLError(CE_Failure, CPLE_FileIO, "%s cannot be renamed to %s", oldName, newName);
    return CE_Failure;
}

CPLErr Dataset::copyFiles(const char *newName, const char *oldName) {
    const char *to = withoutPrefix(newName), *from = withoutPrefix(oldName); // one file would be emptied
    if (!isOneFile(to, from) && CPLCopyFile(to, from) == 0) return CE_None;
    CPLError(CE_Failure, CPLE_FileIO, "%s cannot be copied to %s", oldName, newName);
    return CE_Failure;
}

// Writes what waits and closes the file; false, with an error, if something of it failed now or before.
bool Dataset::closeFiles() {
    bool isGood = !written_ || written_->flush();
    written_ = nullptr;
    layer_.reset();
    if (source_.file && !closed(source_.file)) isGood = false;
    source_.file = nullptr;
    if (!packed_.empty() && VSIUnlink(packed_.c_str()) != 0) {
        CPLError(CE_Failure, CPLE_FileIO, "%s cannot be removed", packed_.c_str());
        isGood = false;
    }
    packed_.clear();
    return isGood;
}

} // namespace twkb
