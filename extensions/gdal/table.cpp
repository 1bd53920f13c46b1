// A table of encoded polylines as a stream of blobs in memory.
#include "table.hpp"

#include <memory>

namespace twkb {

namespace {

using Bytes = std::unique_ptr<GByte, decltype(&VSIFree)>;

bool fail(const char *name, const char *why) {
    CPLError(CE_Failure, CPLE_AppDefined, "%s: %s", name, why);
    return false;
}

// The fault of a record, as the command says it.
std::string faultOf(const polytwkb_report &report) {
    if (report.status != POLYTWKB_REFUSED) return std::string();
    std::string fault = "record " + std::to_string(report.place) + ": ";
    if (report.reason >= POLYTWKB_POLYLINE_BAD_CHARACTER && report.reason < POLYTWKB_POLYLINE_TOO_MANY)
        fault += "polyline at " + std::to_string(report.text_offset) + ": ";
    return fault + reasonText(report.reason);
}

// Packs a table. Blobs are shorter than their rows as a rule; if they are not, the library says what they need.
Bytes packed(const GByte *table, size_t length, polytwkb_report &report) {
    for (size_t room = length + 1;; room = report.needed) {
        Bytes blobs(static_cast<GByte *>(VSI_MALLOC_VERBOSE(room)), VSIFree);
        if (!blobs) return blobs;
        report = polytwkb_pack(table, length, blobs.get(), room, polytwkb_standard_limits(), POLYTWKB_FULL);
        if (report.status != POLYTWKB_TOO_SMALL || report.needed == 0) return blobs;
    }
}

} // namespace

bool packTable(VSILFILE *table, const char *name, std::string &packedName, std::string &fault) {
    GByte *read = nullptr;
    vsi_l_offset length = 0;
    if (!VSIIngestFile(table, name, &read, &length, -1)) return fail(name, "reading failed");
    const Bytes bytes(read, VSIFree);
    polytwkb_report report{};
    Bytes blobs = packed(bytes.get(), static_cast<size_t>(length), report);
    if (!blobs || (report.status != POLYTWKB_DONE && report.status != POLYTWKB_REFUSED))
        return fail(name, "out of memory");
    fault = faultOf(report);
    packedName = CPLSPrintf("/vsimem/polytwkb_%p.twkb", static_cast<void *>(&packedName));
    VSILFILE *file = VSIFileFromMemBuffer(packedName.c_str(), blobs.get(), report.sent, TRUE);
    if (!file) {
        packedName.clear();
        return fail(name, "out of memory");
    }
    (void)blobs.release(); // they are the file's now
    return VSIFCloseL(file) == 0 || fail(name, "closing failed");
}

} // namespace twkb
