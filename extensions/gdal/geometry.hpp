// What a layer gives of a geometry in the arrays of a stream.
#pragma once

#include <memory>

#include "stream.hpp"

namespace twkb {

// The geometry; null if GDAL refuses a part, as a ring that is not closed if it is configured so.
std::unique_ptr<OGRGeometry> geometryAt(const Stream &stream, const Place &place);

// The box of its points, which is empty if it has none.
OGREnvelope envelopeAt(const Stream &stream, const Place &place);

// Its precision; of a collection the highest one of its members, so that no digit is lost by it.
int precisionAt(const Stream &stream, const Place &place);

// Its ids as text, such as [7,null,8]: a number or null for each row but rings and the geometry itself. Empty without ids.
std::string idsAt(const Stream &stream, const Place &place);

} // namespace twkb
