package tizulgech

// #include <tizulgech.h>
import "C"

// A Preview is what the writes of a batch will make of a repository.
type Preview struct {
	// Previous and Root are the roots before and after the batch.
	Previous, Root Cid
	// Unsigned are the bytes of its unsigned commit, which are signed.
	Unsigned []byte
	// Changes are what each key that it writes has and will have, in the order of the keys.
	Changes []KeyChange
}

// Told is what a message tells beside its batch, with the signature of the batch's commit.
type Told struct {
	// Previous is the root before the batch that was signed, and Sig the signature of Preview.Unsigned.
	Previous Cid
	Sig      []byte
	// Seq is the message's number in the stream, and Time when it is sent, as 2026-11-30T12:00:00Z.
	Seq  uint64
	Time string
	// Since is the revision of the batch before, or "" where there was none.
	Since string
}

// A Block has a CID and bytes.
type Block struct {
	Cid   Cid
	Bytes []byte
}

// A CheckedCommit is what a message says that is true of a repository that had the root before.
type CheckedCommit struct {
	// Commit is its signed commit, whose root is that after the batch, and Cid is that of its block.
	Commit SignedCommit
	Cid    Cid
	// Seq is its number in the stream, Since the revision of the batch before, if there was one, and Time when it was sent.
	Seq         uint64
	Since, Time string
	// Operations are what each key had and has, in the order of the message.
	Operations []KeyChange
	// Blocks are the commit, nodes of the tree after the batch, and the records that come.
	Blocks []Block
}

// CheckCommit is what a message says, where it is true of the repository whose tree had the root previous; or a Fault says why not, with the place
// of an operation, or of a field in the order of DAG-CBOR, or with ErrMessageCbor the number of its fault, and the CID of a node.
//
// What is taken is true of whatever records have the root after: each key of the operations has the record that it tells, and the records with
// each operation undone have the root before. Who may sign, and whether the commit is signed, is for the caller to see, by Commit.Unsigned and
// Commit.Sig.
func CheckCommit(previous Cid, message []byte) (CheckedCommit, error) {
	var place C.size_t
	var missing Cid
	from, it := spanOf(previous[:]), spanOf(message)
	found, err := filled(someRoom+2*len(message), ofAll, func(out span, size *C.size_t) C.uint8_t {
		return C.tizulgech_check_commit(from.at, from.length, it.at, it.length, &place, missing.room(), C.size_t(len(missing)), out.at, out.length, size)
	})
	if fault, ok := err.(*Fault); ok {
		cid := Cid{}
		if fault.Is(ErrNodeMissing) || fault.Is(ErrBadNode) {
			cid = missing
		}
		return CheckedCommit{}, ofAll.with(uint8(fault.Number), int(place), cid)
	}
	answer := reader{found}
	checked := CheckedCommit{Commit: answer.commit(), Seq: uint64(answer.number()), Cid: answer.cid()}
	checked.Since, checked.Time = string(answer.part()), string(answer.part())
	checked.Operations = answer.changes()
	for answer.more() {
		cid := answer.cid()
		checked.Blocks = append(checked.Blocks, Block{cid, answer.part()})
	}
	return checked, nil
}

// The changes of an answer, of which it says how many they are.
func (r *reader) changes() []KeyChange {
	found := make([]KeyChange, r.number())
	for place := range found {
		key := string(r.part())
		before := r.cid()
		found[place] = KeyChange{key, before, r.cid()}
	}
	return found
}
