// A table of encoded polylines as a stream of blobs in memory.
#pragma once

#include "library.hpp"

namespace twkb {

// Reads a whole table from a file and packs it into a new file in memory, whose name is set. False, with an error, if that
// cannot be. If a record is refused, the geometries before it are there, and the fault is set.
bool packTable(VSILFILE *table, const char *name, std::string &packed, std::string &fault);

} // namespace twkb
