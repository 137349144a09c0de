package tizulgech

// #include <tizulgech.h>
import "C"

import (
	"runtime"
	"sync"
)

// A Repository is one in memory. Any goroutine may call it: one call at a time is under way, and the others wait. It is let go by Close, or once
// nothing has it any more; any later call is ErrClosed.
type Repository struct {
	mutex sync.Mutex
	raw   C.tizulgech_repository
}

// Applied is what an accepted batch leaves: the root after it, the root before it, and the CID of its unsigned commit.
type Applied struct {
	Root, Previous, Commit Cid
}

// Open opens a repository that takes so many writes, 1 to 1,048,576; another limit is ErrBad.
func Open(limit int) (*Repository, error) {
	return opened(limit, func(r *Repository) C.uint8_t { return C.tizulgech_open(C.size_t(limit), &r.raw) })
}

func opened(limit int, call func(r *Repository) C.uint8_t) (*Repository, error) {
	if limit < 0 {
		return nil, ofAll.fault(uint8(ErrBad.Number))
	}
	r := &Repository{}
	if number := call(r); number != C.TIZULGECH_DONE {
		return nil, ofAll.fault(uint8(number))
	}
	runtime.SetFinalizer(r, (*Repository).Close)
	return r, nil
}

// Close lets it go, once the call that is under way has ended. To close twice is no fault; the error is always nil.
func (r *Repository) Close() error {
	r.mutex.Lock()
	defer r.mutex.Unlock()
	C.tizulgech_close(&r.raw)
	runtime.SetFinalizer(r, nil)
	return nil
}

// A call that answers a number alone, of whoever has the lock or takes it by this.
func (r *Repository) told(call func() C.uint8_t) error {
	r.mutex.Lock()
	defer r.mutex.Unlock()
	return ofAll.fault(uint8(call()))
}

// A call that fills a room.
func (r *Repository) filled(first int, call func(out span, size *C.size_t) C.uint8_t) ([]byte, error) {
	r.mutex.Lock()
	defer r.mutex.Unlock()
	return filled(first, ofAll, call)
}

// Apply accepts all writes of a batch, in order, under a stamp, or none of them.
//
// The first fault is told, with the place of its write: as CheckWrite and CheckStamp say it, ErrEmptyBatch, or ErrWritesFull. ErrRevOrder says
// that the revision isn't after that of the batch before: goroutines that share a repository agree on their order.
func (r *Repository) Apply(stamp Stamp, writes []Write) (*Applied, error) {
	r.mutex.Lock()
	defer r.mutex.Unlock()
	if err := r.stage(writes); err != nil {
		return nil, err
	}
	did, rev, applied := spanOfText(stamp.Did), spanOfText(stamp.Rev), &Applied{}
	var place C.size_t
	number := C.tizulgech_apply(&r.raw, did.at, did.length, rev.at, rev.length, &place, applied.Root.room(), C.size_t(len(Cid{})),
		applied.Previous.room(), C.size_t(len(Cid{})), applied.Commit.room(), C.size_t(len(Cid{})))
	if number != C.TIZULGECH_DONE {
		return nil, ofAll.with(uint8(number), int(place), Cid{})
	}
	return applied, nil
}

// The writes of a batch wait for their stamp, or none does.
func (r *Repository) stage(writes []Write) error {
	for _, write := range writes {
		key, record := spanOfText(write.Key), spanOf(write.Record)
		number := C.tizulgech_stage(&r.raw, C.uint8_t(write.Kind), key.at, key.length, record.at, record.length)
		if number != C.TIZULGECH_DONE {
			// None of this batch is left for a later one.
			C.tizulgech_clear(&r.raw)
			return ofAll.fault(uint8(number))
		}
	}
	return nil
}

// The answer of a call over writes that wait, of which none does afterwards.
func (r *Repository) staged(writes []Write, first int, call func(place *C.size_t, out span, size *C.size_t) C.uint8_t) ([]byte, error) {
	r.mutex.Lock()
	defer r.mutex.Unlock()
	if err := r.stage(writes); err != nil {
		return nil, err
	}
	defer C.tizulgech_clear(&r.raw)
	var place C.size_t
	found, err := filled(first, ofAll, func(out span, size *C.size_t) C.uint8_t { return call(&place, out, size) })
	if fault, ok := err.(*Fault); ok {
		fault.Place = int(place)
	}
	return found, err
}

// Preview is what a batch would make of the repository, which stays as it is: the roots before and after, the bytes of its commit, which are
// signed, and what each key has and will have. The faults are those of Apply.
func (r *Repository) Preview(stamp Stamp, writes []Write) (*Preview, error) {
	did, rev := spanOfText(stamp.Did), spanOfText(stamp.Rev)
	found, err := r.staged(writes, someRoom+256*len(writes), func(place *C.size_t, out span, size *C.size_t) C.uint8_t {
		return C.tizulgech_preview(&r.raw, did.at, did.length, rev.at, rev.length, place, out.at, out.length, size)
	})
	if err != nil {
		return nil, err
	}
	answer := &reader{found}
	preview := &Preview{Previous: answer.cid(), Root: answer.cid(), Unsigned: answer.part()}
	preview.Changes = answer.changes()
	return preview, nil
}

// ApplySigned accepts a batch whose commit was signed, as Preview told it, and answers the message #commit that tells of it; or is a fault, and all
// is as it was. ErrRootMoved says that another batch came since; the other faults are those of Apply, and why no message can tell of the batch:
// ErrBadSeq, ErrBadSince, ErrSinceOrder, ErrBadTime, ErrTooManyOps, ErrMessageRecordSize or ErrBlocksSize. Such a batch is accepted by Apply.
func (r *Repository) ApplySigned(stamp Stamp, writes []Write, told Told) ([]byte, error) {
	did, rev, from, sig := spanOfText(stamp.Did), spanOfText(stamp.Rev), spanOf(told.Previous[:]), spanOf(told.Sig)
	time, since, first := spanOfText(told.Time), spanOfText(told.Since), someRoom
	for _, write := range writes {
		first += 2048 + len(write.Record)
	}
	return r.staged(writes, first, func(place *C.size_t, out span, size *C.size_t) C.uint8_t {
		return C.tizulgech_apply_signed(&r.raw, from.at, from.length, did.at, did.length, rev.at, rev.length, sig.at, sig.length, C.uint64_t(told.Seq),
			time.at, time.length, since.at, since.length, place, out.at, out.length, size)
	})
}

// Rev is the revision of the last batch; "" before the first.
func (r *Repository) Rev() (string, error) {
	found, err := r.filled(someRoom, func(out span, size *C.size_t) C.uint8_t {
		return C.tizulgech_rev(&r.raw, out.at, out.length, size)
	})
	return string(found), unlessNone(err)
}

// Get is the record of a key; nil where there is none. (A record has a byte at least.)
func (r *Repository) Get(key string) ([]byte, error) {
	own := spanOfText(key)
	found, err := r.filled(someRoom, func(out span, size *C.size_t) C.uint8_t {
		return C.tizulgech_get(&r.raw, own.at, own.length, out.at, out.length, size)
	})
	return found, unlessNone(err)
}

// An error that isn't ErrNone.
func unlessNone(err error) error {
	if fault, ok := err.(*Fault); ok && fault.Number == ErrNone.Number {
		return nil
	}
	return err
}

// List is the first keys from one on, so many at most, each with its record's CID.
func (r *Repository) List(start string, most int) ([]Pair, error) {
	if most < 0 {
		return nil, ofAll.fault(uint8(ErrBad.Number))
	}
	from := spanOfText(start)
	found, err := r.filled(someRoom, func(out span, size *C.size_t) C.uint8_t {
		return C.tizulgech_list(&r.raw, from.at, from.length, C.size_t(most), out.at, out.length, size)
	})
	if err != nil {
		return nil, err
	}
	return (&reader{found}).pairs(), nil
}

// Pairs visits all keys from one on, each with its record's CID, read page by page, until the visitor answers an error, which is then that of
// Pairs. It is ErrChanged where a batch came between two pages. The visitor may call the repository.
func (r *Repository) Pairs(start string, visit func(Pair) error) error {
	begun, err := r.Number()
	if err != nil {
		return err
	}
	for {
		from := spanOfText(start)
		found, err := r.part(begun, 24_576, func(out span, size *C.size_t) C.uint8_t {
			return C.tizulgech_entries(&r.raw, from.at, from.length, 512, out.at, out.length, size)
		})
		if err != nil || len(found) == 0 {
			return err
		}
		for _, pair := range (&reader{found}).pairs() {
			if err := visit(pair); err != nil {
				return err
			}
			start = pair.Key + "\x00"
		}
	}
}

// A call that fills a room, where so many writes are accepted as were when the first part was read.
func (r *Repository) part(begun uint64, first int, call func(out span, size *C.size_t) C.uint8_t) ([]byte, error) {
	r.mutex.Lock()
	defer r.mutex.Unlock()
	var number C.uint64_t
	if fault := C.tizulgech_number(&r.raw, &number); fault != C.TIZULGECH_DONE {
		return nil, ofAll.fault(uint8(fault))
	}
	if uint64(number) != begun {
		return nil, ErrChanged
	}
	return filled(first, ofAll, call)
}

// Root is the root of the tree.
func (r *Repository) Root() (root Cid, err error) {
	err = r.told(func() C.uint8_t { return C.tizulgech_root(&r.raw, root.room(), C.size_t(len(root))) })
	return root, err
}

// Commit is the CID of the last batch's commit; the zero Cid before the first.
func (r *Repository) Commit() (commit Cid, err error) {
	err = r.told(func() C.uint8_t { return C.tizulgech_commit(&r.raw, commit.room(), C.size_t(len(commit))) })
	return commit, unlessNone(err)
}

// Number is how many writes are accepted.
func (r *Repository) Number() (uint64, error) {
	var number C.uint64_t
	err := r.told(func() C.uint8_t { return C.tizulgech_number(&r.raw, &number) })
	return uint64(number), err
}

// Prove is the proof of a key: the nodes of its path, from the top, as Verify takes them.
func (r *Repository) Prove(key string) ([][]byte, error) {
	own := spanOfText(key)
	found, err := r.filled(someRoom, func(out span, size *C.size_t) C.uint8_t {
		return C.tizulgech_prove(&r.raw, own.at, own.length, out.at, out.length, size)
	})
	if err != nil {
		return nil, err
	}
	return (&reader{found}).parts(), nil
}

// ProveChange is what changes make of the repository as it is, and what shows it to whoever knows its root: ask before they are applied. Each key
// gets a value, or goes where that is the zero Cid. Nothing is changed by it.
func (r *Repository) ProveChange(changes map[string]Cid) (*ChangeProof, error) {
	own := ordered(changes)
	wanted := wantedOf(own)
	found, err := r.filled(roomForProof(len(own)), func(out span, size *C.size_t) C.uint8_t {
		return C.tizulgech_prove_change(&r.raw, wanted.at, wanted.length, wanted.ends, wanted.count, wanted.values.at, wanted.values.length,
			out.at, out.length, size)
	})
	if err != nil {
		return nil, err
	}
	return proofOf(&reader{found}, own), nil
}

// ProveInversion is the nodes that show that changes undone lead back from the repository as it is; the keys ascend. That each key has what is
// told is looked at, else ErrOtherValue has its place; of what it had this repository knows nothing. To who doesn't know that some records
// have the root after they say nothing: ProveChange shows a step.
func (r *Repository) ProveInversion(changes []KeyChange) ([][]byte, error) {
	told := toldOf(changes)
	var place C.size_t
	found, err := r.filled(roomForProof(len(changes)), func(out span, size *C.size_t) C.uint8_t {
		return C.tizulgech_prove_inversion(&r.raw, told.at, told.length, told.ends, told.count, told.befores.at, told.befores.length,
			told.afters.at, told.afters.length, &place, out.at, out.length, size)
	})
	if fault, ok := err.(*Fault); ok && fault.Number == ErrOtherValue.Number {
		fault.Place = int(place)
	}
	if err != nil {
		return nil, err
	}
	return (&reader{found}).parts(), nil
}

// Room for most proofs of so many changes: where it is too small all is made once more.
func roomForProof(changes int) int {
	if changes > 4096 {
		changes = 4096
	}
	return 8192 + 4096*changes
}
