// A stream of blobs, read window by window.
#pragma once

#include <vector>

#include "library.hpp"

namespace twkb {

// A geometry, and the byte of the stream at which it begins.
struct Mark {
    GIntBig fid;
    vsi_l_offset offset;
};

// What is read: a file, its name for messages, and the fault that comes after its last geometry, if there is one. Marks
// say where windows began, so that random reads begin at one.
struct Source {
    VSILFILE *file = nullptr;
    std::string name;
    std::string fault;
    std::vector<Mark> marks;
};

// Where a geometry is in the arrays of a window.
struct Place {
    GIntBig fid;
    size_t row, rowEnd, point;
};

class Stream {
  public:
    explicit Stream(Source &source) : source_(source) {}

    std::vector<polytwkb_row> rows;
    std::vector<polytwkb_point> points;

    void rewind() { start({0, 0}); }

    // Moves to the next geometry; false at the end, and with an error of a stream that is refused.
    bool next(Place &place);

    // Moves to a geometry by its number; false if there is none.
    bool find(GIntBig fid, Place &place);

    // An error that names the file, a place in the window, and how many geometries come before the window.
    bool fail(const std::string &why, uint64_t place);

  private:
    Source &source_;
    std::vector<uint8_t> bytes_; // those of the file from offset_ on are from begin_ to end_
    size_t begin_ = 0, end_ = 0;
    vsi_l_offset offset_ = 0;
    polytwkb_counts counts_{};
    GIntBig windowFid_ = 0, fid_ = 0; // of the window's first geometry, and of the next one
    size_t row_ = 0, point_ = 0;

    void start(const Mark &mark);
    bool load();
    bool fill(size_t window, bool &isEnd);
    bool read(size_t length);
    bool ended();
};

} // namespace twkb
