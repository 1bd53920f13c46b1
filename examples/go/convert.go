// A column of encoded polylines to TWKB blobs and back, by cgo. With the library installed:
//
//	go run convert.go
package main

/*
#cgo LDFLAGS: -lpolytwkb
#include <polytwkb.h>
*/
import "C"

import (
	"bytes"
	"encoding/csv"
	"fmt"
	"log"
	"strconv"
	"unsafe"
)

// Refused says why an input is refused, and the record or the byte where that is.
type Refused struct {
	Text  string
	Place uint64
}

func (refused *Refused) Error() string {
	return fmt.Sprintf("%s at %d", refused.Text, refused.Place)
}

// start returns the address of a buffer; in C it may be nil if the buffer is empty.
func start(buffer []byte) *C.uint8_t {
	if len(buffer) == 0 {
		return nil
	}
	return (*C.uint8_t)(unsafe.Pointer(&buffer[0]))
}

// text returns what a call of C writes: a reason, or the version.
func text(write func(room *C.char, length C.size_t) C.size_t) string {
	var room [C.POLYTWKB_TEXT_ROOM]C.char
	write(&room[0], C.size_t(len(room)))
	return C.GoString(&room[0])
}

// Version returns the version of the library.
func Version() string {
	return text(func(room *C.char, length C.size_t) C.size_t { return C.polytwkb_version(room, length) })
}

// conversion is a call of C with a room for its output.
type conversion func(output *C.uint8_t, room C.size_t) C.polytwkb_report

// converted returns what a call writes, into a buffer that is made once more if it was too small. If
// the input is refused, that is the output of the geometries before.
func converted(room int, call conversion) ([]byte, error) {
	for {
		output := make([]byte, room)
		report := call(start(output), C.size_t(room))
		switch {
		case report.status == C.POLYTWKB_DONE:
			return output[:report.sent], nil
		case report.status == C.POLYTWKB_REFUSED:
			reason := text(func(room *C.char, length C.size_t) C.size_t {
				return C.polytwkb_reason_text(report.reason, room, length)
			})
			return output[:report.sent], &Refused{reason, uint64(report.place)}
		case report.status != C.POLYTWKB_TOO_SMALL || uint64(report.needed) <= uint64(room):
			return nil, fmt.Errorf("status %d", report.status)
		}
		room = int(report.needed)
	}
}

// Pack packs a table of any number of geometries to a stream.
func Pack(table []byte, style C.uint32_t) ([]byte, error) {
	return converted(len(table)+64, func(output *C.uint8_t, room C.size_t) C.polytwkb_report {
		limits := C.polytwkb_standard_limits()
		return C.polytwkb_pack(start(table), C.size_t(len(table)), output, room, limits, style)
	})
}

// Unpack unpacks a stream to a table.
func Unpack(stream []byte) ([]byte, error) {
	return converted(2*len(stream)+64, func(output *C.uint8_t, room C.size_t) C.polytwkb_report {
		limits := C.polytwkb_standard_limits()
		return C.polytwkb_unpack(start(stream), C.size_t(len(stream)), output, room, limits)
	})
}

// tableOf makes a table of polylines, each a linestring of a precision.
func tableOf(polylines []string, precision int) []byte {
	var table bytes.Buffer
	rows := csv.NewWriter(&table)
	rows.Write([]string{"depth", "kind", "id", "precision", "polyline"})
	for _, polyline := range polylines {
		rows.Write([]string{"0", "linestring", "", strconv.Itoa(precision), polyline})
	}
	rows.Flush()
	return table.Bytes()
}

// check ends the program if something is not as it has to be.
func check(holds bool, what string, err error) {
	if !holds || err != nil {
		log.Fatalf("wrong: %s: %v", what, err)
	}
}

func main() {
	// The line from (1, 1) to (5, 5) is the blob that PostGIS writes.
	blob, err := Pack(tableOf([]string{"AAGG"}, 0), C.POLYTWKB_PLAIN)
	check(bytes.Equal(blob, []byte{2, 0, 2, 2, 2, 8, 8}), "the blob of a line", err)

	// Google's example, a street in Bern, and a line without points: a stream by one call, and back.
	table := tableOf([]string{"_p~iF~ps|U_ulLnnqC_mqNvxq`@", "yop}Gysml@lAxTfChSgKhK", ""}, 5)
	stream, err := Pack(table, C.POLYTWKB_FULL)
	check(true, "pack", err)
	back, err := Unpack(stream)
	check(bytes.Equal(back, table), "the table again", err)
	fmt.Printf("3 polylines, %d bytes: %x\n", len(stream), stream)

	// A stream that is cut before its last byte, and a polyline with a character that none has.
	_, err = Unpack(stream[:len(stream)-1])
	fmt.Println(err)
	_, err = Pack(tableOf([]string{"AAGG", "AA!"}, 5), C.POLYTWKB_FULL)
	fmt.Println(err)
	none, err := Pack(nil, C.POLYTWKB_FULL)
	check(len(none) == 0 && err.Error() == "bad header at 1", "no table", nil)
	fmt.Println("by version", Version(), "of the library")
}
