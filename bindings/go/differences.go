package tizulgech

// #include <tizulgech.h>
import "C"

// A Difference is what the tree with one root differs by from that with another: what each key had and has, in the order of the keys, the nodes of
// the tree after that the tree before lacks, and the CIDs of those that went.
type Difference struct {
	Changes []KeyChange
	Add     []Node
	Drop    []Cid
}

// TreeDifference is what the tree with the root after differs by from that with the root before. Of each tree just the nodes are asked for that the
// other lacks, and both roots: layer by layer, each once, and each is hashed. The faults are those of TreeApply.
func TreeDifference(nodes Nodes, before, after Cid) (*Difference, error) {
	return treeDifference(nodes, before, after, false)
}

// TreeDifferenceKnown is TreeDifference over nodes of which none is hashed, as TreeApplyKnown has them.
func TreeDifferenceKnown(nodes Nodes, before, after Cid) (*Difference, error) {
	return treeDifference(nodes, before, after, true)
}

func treeDifference(nodes Nodes, before, after Cid, known bool) (*Difference, error) {
	given := &given{ask: nodes, known: known, places: map[Cid]int{}}
	for {
		answer, err := given.ofBoth(before, after, 36*(len(given.nodes)+16), missingOfBoth)
		if err != nil {
			return nil, err
		}
		if !answer.more() {
			break
		}
		var cids []Cid
		for answer.more() {
			cids = append(cids, answer.cid())
		}
		if err := given.askFor(cids); err != nil {
			return nil, err
		}
	}
	room := someRoom
	for _, node := range given.nodes {
		room += 2 * len(node)
	}
	answer, err := given.ofBoth(before, after, room, differenceOfBoth)
	if err != nil {
		return nil, err
	}
	found := &Difference{Changes: answer.changes()}
	for left := answer.number(); left > 0; left-- {
		found.Drop = append(found.Drop, answer.cid())
	}
	for answer.more() {
		cid := answer.cid()
		found.Add = append(found.Add, Node{cid, answer.part()})
	}
	return found, nil
}

// A call over nodes of two trees.
type ofBoth func(nodes list, cids, before, after, bad, out span, size *C.size_t) C.uint8_t

func missingOfBoth(nodes list, cids, before, after, bad, out span, size *C.size_t) C.uint8_t {
	return C.tizulgech_missing(nodes.at, nodes.length, nodes.ends, nodes.count, cids.at, cids.length, before.at, before.length,
		after.at, after.length, bad.at, bad.length, out.at, out.length, size)
}

func differenceOfBoth(nodes list, cids, before, after, bad, out span, size *C.size_t) C.uint8_t {
	return C.tizulgech_difference(nodes.at, nodes.length, nodes.ends, nodes.count, cids.at, cids.length, before.at, before.length,
		after.at, after.length, bad.at, bad.length, out.at, out.length, size)
}

// What such a call answers over the nodes that are here.
func (g *given) ofBoth(before, after Cid, room int, call ofBoth) (*reader, error) {
	nodes, cids, from, to, bad := listOf(g.nodes), spanOf(g.cids), spanOf(before[:]), spanOf(after[:]), Cid{}
	found, err := filled(room, ofTrees, func(out span, size *C.size_t) C.uint8_t {
		return call(nodes, cids, from, to, spanOf(bad[:]), out, size)
	})
	if fault, ok := err.(*Fault); ok && (fault.Number == ErrMissing.Number || fault.Number == ErrBadNode.Number) {
		fault.Cid = bad
	}
	if err != nil {
		return nil, err
	}
	return &reader{found}, nil
}
