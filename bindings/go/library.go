package tizulgech

// #cgo pkg-config: tizulgech
// #include <tizulgech.h>
import "C"

import (
	"encoding/binary"
	"fmt"
	"unsafe"
)

// Version is the number of the library's interface for which this package is written.
const Version = 4

// LibraryVersion is the number of the interface of the library that was linked: it is Version, or no program runs with this package.
func LibraryVersion() uint64 {
	return uint64(C.tizulgech_version())
}

func init() {
	if number := LibraryVersion(); number != Version {
		panic(fmt.Sprintf("tizulgech: the library has the interface %d, and this package is written for %d", number, Version))
	}
}

// What stands for no bytes, and for no ends: a pointer that isn't null.
var (
	noBytes [1]C.uint8_t
	noEnds  [1]C.size_t
)

// Bytes as a call takes them: where they are, and how many.
type span struct {
	at     *C.uint8_t
	length C.size_t
}

func spanOf(bytes []byte) span {
	if len(bytes) == 0 {
		return span{&noBytes[0], 0}
	}
	return span{(*C.uint8_t)(unsafe.Pointer(&bytes[0])), C.size_t(len(bytes))}
}

func spanOfText(text string) span {
	return spanOf([]byte(text))
}

// Byte strings as a call takes them: one after another, and where each ends.
type list struct {
	span
	ends  *C.size_t
	count C.size_t
}

func listOf(parts [][]byte) list {
	var whole []byte
	ends := make([]C.size_t, len(parts))
	for place, part := range parts {
		whole = append(whole, part...)
		ends[place] = C.size_t(len(whole))
	}
	if len(ends) == 0 {
		return list{spanOf(whole), &noEnds[0], 0}
	}
	return list{spanOf(whole), &ends[0], C.size_t(len(ends))}
}

func listOfTexts(texts []string) list {
	parts := make([][]byte, len(texts))
	for place, text := range texts {
		parts[place] = []byte(text)
	}
	return listOf(parts)
}

// Room for a CID.
func (c *Cid) room() *C.uint8_t {
	return (*C.uint8_t)(unsafe.Pointer(&c[0]))
}

// The answer of a call that fills a room, of which so many bytes are tried first.
func filled(first int, of faults, call func(out span, size *C.size_t) C.uint8_t) ([]byte, error) {
	var size C.size_t
	out := make([]byte, first)
	number := call(spanOf(out), &size)
	if number == C.TIZULGECH_SMALL {
		out = make([]byte, int(size))
		number = call(spanOf(out), &size)
	}
	if number != C.TIZULGECH_DONE {
		return nil, of.fault(uint8(number))
	}
	return out[:int(size)], nil
}

// Room for the answer of most calls: where it is too small the call is made once more.
const someRoom = 4096

// What the library wrote, read part by part.
type reader struct {
	left []byte
}

func (r *reader) more() bool {
	return len(r.left) > 0
}

func (r *reader) take(count int) []byte {
	found := r.left[:count:count]
	r.left = r.left[count:]
	return found
}

func (r *reader) number() int {
	return int(binary.LittleEndian.Uint64(r.take(8)))
}

func (r *reader) part() []byte {
	return r.take(r.number())
}

func (r *reader) parts() [][]byte {
	var found [][]byte
	for r.more() {
		found = append(found, r.part())
	}
	return found
}

// A CID; the zero Cid where there is none.
func (r *reader) cid() (cid Cid) {
	copy(cid[:], r.take(len(cid)))
	return cid
}

func (r *reader) pairs() []Pair {
	var found []Pair
	for r.more() {
		key := string(r.part())
		found = append(found, Pair{key, r.cid()})
	}
	return found
}
