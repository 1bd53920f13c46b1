// The driver's names and options, as GDAL asks for them when it loads the plugin.
#include "dataset.hpp"

namespace {

constexpr const char *kOpenOptions =
    "<OpenOptionList>"
    "<Option name='SRS' type='string' description='spatial reference, such as EPSG:4326; x is east, y north'/>"
    "<Option name='FIELDS' type='boolean' default='YES' description='fields twkb_prec and twkb_ids'/>"
    "</OpenOptionList>";

constexpr const char *kLayerOptions =
    "<LayerCreationOptionList>"
    "<Option name='PRECISION' type='string' description='decimals of coordinates, -8 to 7, or FIELD: those of the "
    "field twkb_prec. Without it 7, or 3 with a projected spatial reference'/>"
    "<Option name='STYLE' type='string-select' default='FULL' description='with or without sizes and boxes'>"
    "<Value>FULL</Value><Value>PLAIN</Value></Option>"
    "<Option name='HEIGHTS' type='string-select' default='REFUSE' description='what is done with heights'>"
    "<Value>REFUSE</Value><Value>DROP</Value></Option>"
    "</LayerCreationOptionList>";

// None is kept, but without the list ogr2ogr warns once for each field.
constexpr const char *kFieldTypes = "Integer Integer64 Real String Date Time DateTime Binary "
                                    "IntegerList Integer64List RealList StringList";

} // namespace

extern "C" void CPL_DLL RegisterOGRTWKB() {
    if (!GDAL_CHECK_VERSION("TWKB driver") || GDALGetDriverByName("TWKB")) return;
    auto *driver = new GDALDriver();
    driver->SetDescription("TWKB");
    for (const char *can : {GDAL_DCAP_VECTOR, GDAL_DCAP_CREATE_LAYER, GDAL_DCAP_CREATE_FIELD, GDAL_DCAP_VIRTUALIO})
        driver->SetMetadataItem(can, "YES");
#if GDAL_SINCE(9)
    driver->SetMetadataItem(GDAL_DCAP_HONOR_GEOM_COORDINATE_PRECISION, "YES");
#endif
    driver->SetMetadataItem(GDAL_DMD_LONGNAME, "Tiny Well-known Binary, a stream of blobs");
    driver->SetMetadataItem(GDAL_DMD_EXTENSION, "twkb");
    driver->SetMetadataItem(GDAL_DMD_CONNECTION_PREFIX, "TWKB:");
    driver->SetMetadataItem(GDAL_DMD_SUPPORTED_SQL_DIALECTS, "OGRSQL SQLITE");
    driver->SetMetadataItem(GDAL_DMD_CREATIONFIELDDATATYPES, kFieldTypes);
    driver->SetMetadataItem(GDAL_DMD_OPENOPTIONLIST, kOpenOptions);
    driver->SetMetadataItem(GDAL_DS_LAYER_CREATIONOPTIONLIST, kLayerOptions);
    driver->pfnIdentify = twkb::Dataset::identify;
    driver->pfnOpen = twkb::Dataset::open;
    driver->pfnCreate = twkb::Dataset::create;
    driver->pfnRename = twkb::Dataset::rename;
    driver->pfnCopyFiles = twkb::Dataset::copyFiles;
    GetGDALDriverManager()->RegisterDriver(driver);
}
