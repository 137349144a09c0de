package tizulgech

// #include <tizulgech.h>
import "C"

// An Export says of which repository a file is the export: the CID of its signed commit, the root of its tree, how many records it has, its DID
// and its revision.
type Export struct {
	Commit, Root Cid
	Count        int
	Did, Rev     string
}

// CheckCar says of which repository a CAR file is the export, as com.atproto.sync.getRepo serves it. Nothing of it is trusted: each block is
// hashed, and the tree is built anew of the records. No signature is tested.
//
// Another file has a first fault: of its form ErrCARHeader, ErrCARLength, ErrCARTruncated, ErrCARCid or ErrMisnamed; of its commit
// ErrCommitMissing, ErrNotACommit, ErrCommitDid or ErrCommitRev; ErrNotTheTree; and of a record, whose place among the records the fault has,
// ErrBadKey, ErrRecordMissing, ErrRecordSize, a fault of DAG-CBOR or ErrNotAMap.
func CheckCar(file []byte) (Export, error) {
	var place C.size_t
	it := spanOf(file)
	found, err := filled(someRoom, ofAll, func(out span, size *C.size_t) C.uint8_t {
		return C.tizulgech_check_car(it.at, it.length, &place, out.at, out.length, size)
	})
	if fault, ok := err.(*Fault); ok {
		fault.Place = int(place)
	}
	if err != nil {
		return Export{}, err
	}
	answer := reader{found}
	commit, root, count := answer.cid(), answer.cid(), answer.number()
	return Export{commit, root, count, string(answer.part()), string(answer.part())}, nil
}

// OpenCar opens a repository that takes so many writes with the records of a CAR file, which is checked as by CheckCar: they are one batch of so
// many writes, under the DID and the revision of the file's commit. Its own commit has no signature, and so another CID than the file's. A file
// without records gives a repository without writes.
//
// The faults are those of CheckCar; ErrWritesFull, the file has more records than the limit, and ErrBad, the limit isn't 1 to 1,048,576.
func OpenCar(limit int, file []byte) (*Repository, error) {
	var place C.size_t
	it := spanOf(file)
	r, err := opened(limit, func(r *Repository) C.uint8_t {
		return C.tizulgech_open_car(C.size_t(limit), it.at, it.length, &r.raw, &place)
	})
	if fault, ok := err.(*Fault); ok {
		fault.Place = int(place)
	}
	return r, err
}
