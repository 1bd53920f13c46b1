// What all parts of the driver share: the library, the versions of GDAL, and names.
#pragma once

#include <cstdint>
#include <string>

#include "cpl_conv.h"
#include "cpl_error.h"
#include "cpl_vsi.h"
#include "gdal_priv.h"
#include "ogrsf_frmts.h"
#include "polytwkb.h"

// What changed in the interface of drivers: 3.7 and 3.13 (Close), 3.9 (ICreateLayer, CreateField), 3.10 (VSIFErrorL),
// 3.11 (IGetExtent), 3.12 (const).
#define GDAL_SINCE(minor) (GDAL_VERSION_NUM >= GDAL_COMPUTE_VERSION(3, minor, 0))
#if GDAL_SINCE(12)
#define CONST_SINCE_312 const
#else
#define CONST_SINCE_312
#endif

namespace twkb {

#if GDAL_SINCE(9)
using FieldDefn = const OGRFieldDefn;
#else
using FieldDefn = OGRFieldDefn;
#endif
#if GDAL_SINCE(13)
using Options = CSLConstList;
#else
using Options = char **;
#endif

// The fields of a layer. Shapefile cuts names of more than ten characters.
inline constexpr const char *kPrecisionField = "twkb_prec";
inline constexpr const char *kIdsField = "twkb_ids";

inline constexpr int kLeastPrecision = -8, kMostPrecision = 7;

// Takes a precision from its text, which may be that of a double, as 5.0; false if it is none.
inline bool takePrecision(const char *text, int &precision) {
    char *end = nullptr;
    const double number = CPLStrtod(text, &end);
    if (end == text || *end || !(number >= kLeastPrecision && number <= kMostPrecision)) return false;
    precision = static_cast<int>(number);
    return precision == number;
}

// The text of a reason of the library.
inline std::string reasonText(uint32_t reason) {
    char text[POLYTWKB_TEXT_ROOM] = {0};
    polytwkb_reason_text(reason, text, sizeof text);
    return text;
}

// A coordinate in degrees, or in the unit of the reference system.
inline double fromUnits(int64_t units, int precision) {
    constexpr double powers[] = {1, 1e1, 1e2, 1e3, 1e4, 1e5, 1e6, 1e7, 1e8};
    const double number = static_cast<double>(units);
    return precision >= 0 ? number / powers[precision] : number * powers[-precision];
}

// The reference system of a layer. x is east and y north, whatever its authority says.
void setReference(OGRFeatureDefn *definition, const OGRSpatialReference *reference);

} // namespace twkb
