package tizulgech

// #include <tizulgech.h>
import "C"

import "sort"

// A KeyChange says what a key had and what it has: the zero Cid where that is nothing.
type KeyChange struct {
	Key           string
	Before, After Cid
}

// A ChangeProof is what changes make of a repository, or of a tree, and what shows it: the root after them, what each key had and has, in the order of the
// keys, and the nodes of the tree before that doing them reads. Who knows the root before gives all of it to VerifyChange.
type ChangeProof struct {
	After   Cid
	Changes []KeyChange
	Nodes   [][]byte
}

// Verify says what the tree with this root has under a key, as the nodes of a proof show: its value's CID, or the zero Cid where it has none.
//
// A proof that shows neither is a fault: ErrMissing, a node of the path isn't there; ErrBadNode, one is no node; ErrTooManyNodes, the path is
// longer than any tree is deep; ErrBadKey, no tree has the key.
func Verify(root Cid, proof [][]byte, key string) (value Cid, err error) {
	nodes, of, own := listOf(proof), spanOf(root[:]), spanOfText(key)
	number := C.tizulgech_verify(nodes.at, nodes.length, nodes.ends, nodes.count, of.at, of.length, own.at, own.length, value.room(), C.size_t(len(value)))
	if number == C.TIZULGECH_DONE {
		return value, nil
	}
	if number == C.TIZULGECH_NONE {
		return Cid{}, nil
	}
	return Cid{}, ofTrees.fault(uint8(number))
}

// VerifyChange is a fault unless the tree with one root becomes that with the other by these changes, as nodes of the tree before show. The keys
// ascend.
//
// Where the root before is that of some records, the root after is that of these records with the changes done: so who goes on from root to
// root begins with the empty tree's, or with one that it computed, and verifies step by step.
//
// ErrMissing and ErrBadNode have the node's CID; ErrOtherValue the place of the change whose key had another value; ErrOtherRoot, the changes
// lead to another root; ErrNotTree and ErrTooManyNodes, the nodes are no tree's; ErrBad, the keys don't ascend.
func VerifyChange(before, after Cid, nodes [][]byte, changes []KeyChange) error {
	its, from, to, told, missing, place := listOf(nodes), spanOf(before[:]), spanOf(after[:]), toldOf(changes), Cid{}, C.size_t(0)
	number := C.tizulgech_verify_change(its.at, its.length, its.ends, its.count, from.at, from.length, to.at, to.length,
		told.at, told.length, told.ends, told.count, told.befores.at, told.befores.length, told.afters.at, told.afters.length,
		missing.room(), C.size_t(len(missing)), &place)
	return faultOfChange(number, missing, place)
}

// VerifyInversion is a fault unless these changes undone lead from the tree with the root after back to the root before, as nodes of the tree
// after show: the operation inversion of the event stream. The faults are those of VerifyChange, with both trees exchanged.
//
// No fault speaks only of whatever records have the root after. Of a root that no records have it says nothing, and one can be made up that
// hides keys: so nobody goes on from a root after by it, but by VerifyChange.
func VerifyInversion(before, after Cid, nodes [][]byte, changes []KeyChange) error {
	its, from, to, told, missing, place := listOf(nodes), spanOf(before[:]), spanOf(after[:]), toldOf(changes), Cid{}, C.size_t(0)
	number := C.tizulgech_verify_inversion(its.at, its.length, its.ends, its.count, from.at, from.length, to.at, to.length,
		told.at, told.length, told.ends, told.count, told.befores.at, told.befores.length, told.afters.at, told.afters.length,
		missing.room(), C.size_t(len(missing)), &place)
	return faultOfChange(number, missing, place)
}

// What a call over given nodes answered: a fault of a node has its CID, and one of another value its place.
func faultOfChange(number C.uint8_t, missing Cid, place C.size_t) error {
	switch number {
	case C.TIZULGECH_DONE:
		return nil
	case C.TIZULGECH_MISSING, C.TIZULGECH_BAD_NODE:
		return ofTrees.with(uint8(number), 0, missing)
	case C.TIZULGECH_OTHER_VALUE:
		return ofTrees.with(uint8(number), int(place), Cid{})
	}
	return ofTrees.fault(uint8(number))
}

// Changes that are told as a call takes them: their keys, and what each had and has.
type told struct {
	list
	befores, afters span
}

func toldOf(changes []KeyChange) told {
	keys := make([]string, len(changes))
	var befores, afters []byte
	for place, change := range changes {
		keys[place] = change.Key
		befores = append(befores, change.Before[:]...)
		afters = append(afters, change.After[:]...)
	}
	return told{listOfTexts(keys), spanOf(befores), spanOf(afters)}
}

// A change that is wanted: a key, and its new value, or the zero Cid where it goes.
type change struct {
	key   string
	value Cid
}

// What changes make of a tree, and what shows it, as an answer has both.
func proofOf(answer *reader, changes []change) *ChangeProof {
	proof := &ChangeProof{After: answer.cid()}
	for _, change := range changes {
		proof.Changes = append(proof.Changes, KeyChange{change.key, answer.cid(), change.value})
	}
	proof.Nodes = answer.parts()
	return proof
}

// Changes in the order of their keys.
func ordered(changes map[string]Cid) []change {
	found := make([]change, 0, len(changes))
	for key, value := range changes {
		found = append(found, change{key, value})
	}
	sort.Slice(found, func(one, other int) bool { return found[one].key < found[other].key })
	return found
}

// The same as a call takes them: their keys, and the new value of each.
type wanted struct {
	list
	values span
}

func wantedOf(changes []change) wanted {
	keys := make([]string, len(changes))
	var values []byte
	for place, change := range changes {
		keys[place] = change.key
		values = append(values, change.value[:]...)
	}
	return wanted{listOfTexts(keys), spanOf(values)}
}
