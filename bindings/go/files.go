package tizulgech

// #include <tizulgech.h>
import "C"

import (
	"errors"
	"io"
)

// ErrChanged says that a batch came between two parts of a repository that were read one after another, so they are of two states of it.
var ErrChanged = errors.New("a batch came between two parts of the repository")

// Car is the repository as one file (CARv1).
func (r *Repository) Car() ([]byte, error) {
	length, err := r.CarLength()
	if err != nil {
		return nil, err
	}
	return r.filled(int(length), func(out span, size *C.size_t) C.uint8_t {
		return C.tizulgech_car(&r.raw, out.at, out.length, size)
	})
}

// CarLength is how many bytes that file has; none of them is made.
func (r *Repository) CarLength() (uint64, error) {
	var length C.uint64_t
	err := r.told(func() C.uint8_t { return C.tizulgech_car_length(&r.raw, &length) })
	return uint64(length), err
}

// CarPart reads that file from a place on into a room, and says how many bytes it read: as many as there is room for, or as there are. It costs
// the way through all that is before them.
func (r *Repository) CarPart(from uint64, part []byte) (int, error) {
	out, size := spanOf(part), C.size_t(0)
	err := r.told(func() C.uint8_t { return C.tizulgech_car_part(&r.raw, C.uint64_t(from), out.at, out.length, &size) })
	return int(size), err
}

// WriteCar writes that file in one go, of which each part is made once and none is kept, and says how many bytes were written: ErrChanged where
// a batch came between two parts, or the writer's own error.
func (r *Repository) WriteCar(to io.Writer) (int64, error) {
	return r.CarReader().WriteTo(to)
}

// CarReader gives that file in the same way to whoever reads; it is of the moment of the first Read, and any error stays.
func (r *Repository) CarReader() *CarReader {
	return &CarReader{of: r, seen: map[Cid]bool{}}
}

// A CarReader reads the file of a repository; it is an io.Reader and an io.WriterTo. One goroutine has it at a time.
type CarReader struct {
	of      *Repository
	begun   uint64
	isBegun bool
	// What is still to be written, the last first; and what has been.
	left []Link
	seen map[Cid]bool
	// What is made of it and not read yet, and what stopped it.
	part []byte
	err  error
}

// Read is that of io.Reader.
func (c *CarReader) Read(to []byte) (int, error) {
	if len(to) == 0 {
		return 0, nil
	}
	for len(c.part) == 0 {
		if c.err == nil {
			c.part, c.err = c.next()
		}
		if c.err != nil {
			return 0, c.err
		}
	}
	count := copy(to, c.part)
	c.part = c.part[count:]
	return count, nil
}

// WriteTo is that of io.WriterTo.
func (c *CarReader) WriteTo(to io.Writer) (int64, error) {
	var whole int64
	for {
		if len(c.part) > 0 {
			count, err := to.Write(c.part)
			whole, c.part = whole+int64(count), c.part[count:]
			if err != nil {
				return whole, err
			}
		}
		if c.err == nil {
			c.part, c.err = c.next()
		}
		if c.err == io.EOF {
			return whole, nil
		}
		if c.err != nil {
			return whole, c.err
		}
	}
}

// The next part: the header, and then a section for each block; io.EOF behind the last.
func (c *CarReader) next() ([]byte, error) {
	if !c.isBegun {
		if err := c.begin(); err != nil {
			return nil, err
		}
		return c.of.part(c.begun, someRoom, func(out span, size *C.size_t) C.uint8_t {
			return C.tizulgech_car_head(&c.of.raw, out.at, out.length, size)
		})
	}
	for len(c.left) > 0 {
		link := c.left[len(c.left)-1]
		c.left = c.left[:len(c.left)-1]
		if !link.IsNode && c.seen[link.Cid] {
			continue
		}
		section, err := c.section(link)
		if err != nil {
			return nil, err
		}
		if !c.seen[link.Cid] {
			c.seen[link.Cid] = true
			return section, nil
		}
	}
	return nil, io.EOF
}

// Reads the number of writes, the root and the commit, if there is one, at one time.
func (c *CarReader) begin() error {
	c.of.mutex.Lock()
	defer c.of.mutex.Unlock()
	var number C.uint64_t
	var root, commit Cid
	if fault := C.tizulgech_number(&c.of.raw, &number); fault != C.TIZULGECH_DONE {
		return ofAll.fault(uint8(fault))
	}
	if fault := C.tizulgech_root(&c.of.raw, root.room(), C.size_t(len(root))); fault != C.TIZULGECH_DONE {
		return ofAll.fault(uint8(fault))
	}
	c.begun, c.isBegun, c.left = uint64(number), true, []Link{{true, root}}
	if C.tizulgech_commit(&c.of.raw, commit.room(), C.size_t(len(commit))) == C.TIZULGECH_DONE {
		c.left = append(c.left, Link{false, commit})
	}
	return nil
}

// The section of a block; what stands below a node is to be written next.
func (c *CarReader) section(link Link) ([]byte, error) {
	cid := spanOf(link.Cid[:])
	section, err := c.of.part(c.begun, someRoom, func(out span, size *C.size_t) C.uint8_t {
		return C.tizulgech_car_section(&c.of.raw, cid.at, cid.length, out.at, out.length, size)
	})
	if err != nil || !link.IsNode {
		return section, err
	}
	// The block stands behind a length, of which each byte but the last is 128 or more, and its CID.
	start := 0
	for section[start] >= 128 {
		start++
	}
	below, err := Links(section[start+1+len(link.Cid):])
	for place := len(below) - 1; place >= 0; place-- {
		c.left = append(c.left, below[place])
	}
	return section, err
}
