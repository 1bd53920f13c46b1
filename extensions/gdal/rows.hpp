// The rows and points of a geometry of GDAL.
#pragma once

#include <vector>

#include "library.hpp"

namespace twkb {

class Rows {
  public:
    explicit Rows(bool dropsHeights) : dropsHeights_(dropsHeights) {}

    // Takes a geometry in place of the one before. Null, or why it is refused.
    const char *take(const OGRGeometry &geometry, int precision);

    // Gives the rows the ids of a text, such as [7,null,8]; false if these are not as many, or no numbers.
    bool setIds(const char *text);
    void clearIds();

    const std::vector<polytwkb_row> &rows() const { return rows_; }
    const std::vector<polytwkb_point> &points() const { return points_; }

  private:
    const bool dropsHeights_;
    std::vector<polytwkb_row> rows_;
    std::vector<double> numbers_; // x and y of each point
    std::vector<polytwkb_point> points_;

    void push(uint16_t kind, uint32_t depth, uint64_t points, int precision);
    const char *add(const OGRGeometry &geometry, uint32_t depth, int precision);
    const char *addPoint(const OGRPoint &point, uint32_t depth, int precision);
    const char *addCurve(uint16_t kind, const OGRSimpleCurve &curve, uint32_t depth, int precision);
    const char *addRings(const OGRPolygon &polygon, uint32_t depth, int precision);
    const char *addParts(uint16_t kind, const OGRGeometry &whole, uint32_t depth, int precision, int below);
    const char *round(int precision);
};

} // namespace twkb
