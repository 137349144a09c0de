package tizulgech

// #include <tizulgech.h>
import "C"

// EmptyNode is the one node of the tree of no keys.
const EmptyNode = "\xa2ae\x80al\xf6"

// No tree has more layers.
const mostNodes = 129

// Nodes gives a node by its CID: no bytes where there is none, and an error that ends the call which asked for it.
type Nodes func(cid Cid) ([]byte, error)

// A Node is a CID and the bytes that it names.
type Node struct {
	Cid   Cid
	Bytes []byte
}

// An Edit is what changes do to the set of a tree's nodes: the root after them, the nodes that are to be inserted and the CIDs of those that are
// to be removed, and the value that each key had, the zero Cid where it had none.
type Edit struct {
	Root     Cid
	Add      []Node
	Drop     []Cid
	Previous map[string]Cid
}

// TreePath is the nodes from a root down to a key, which prove what the tree has under it, and its value, the zero Cid where it has none. No node
// is hashed. ErrMissing and ErrBadNode have the CID of the node that isn't there, or is none.
func TreePath(nodes Nodes, root Cid, key string) (path [][]byte, value Cid, err error) {
	own, cid := spanOfText(key), root
	for len(path) < mostNodes {
		node, err := nodeOf(nodes, cid)
		if err != nil {
			return nil, Cid{}, err
		}
		path = append(path, node)
		var below Cid
		it := spanOf(node)
		switch number := C.tizulgech_step(it.at, it.length, own.at, own.length, below.room(), C.size_t(len(below))); number {
		case C.TIZULGECH_DONE:
			return path, below, nil
		case C.TIZULGECH_BELOW:
			cid = below
		case C.TIZULGECH_NONE:
			return path, Cid{}, nil
		default:
			return nil, Cid{}, ofTrees.with(uint8(number), 0, cid)
		}
	}
	return nil, Cid{}, ofTrees.fault(uint8(ErrTooManyNodes.Number))
}

// TreeGet is the value of a key, or the zero Cid. No node is hashed; the faults are those of TreePath.
func TreeGet(nodes Nodes, root Cid, key string) (Cid, error) {
	_, value, err := TreePath(nodes, root, key)
	return value, err
}

// TreeList is the first keys from one on, so many at most, each with its record's CID. No node is hashed; the faults are those of TreePath. The
// next ones begin at the last key with a zero byte behind it.
func TreeList(nodes Nodes, root Cid, start string, most int) ([]Pair, error) {
	var found []Pair
	left := []rest{{cid: root, layers: mostNodes}}
	for len(left) > 0 && len(found) < most {
		next := left[len(left)-1]
		left = left[:len(left)-1]
		if next.isPair {
			found = append(found, Pair{next.key, next.cid})
			continue
		}
		below, err := next.from(nodes, start)
		if err != nil {
			return nil, err
		}
		left = append(left, below...)
	}
	return found, nil
}

// What is left of a listing: a pair, or a node with how many layers it may have.
type rest struct {
	isPair bool
	key    string
	cid    Cid
	layers int
}

// What of a node isn't before a key, the next last.
func (r rest) from(nodes Nodes, start string) ([]rest, error) {
	if r.layers == 0 {
		return nil, ofTrees.fault(uint8(ErrTooManyNodes.Number))
	}
	node, err := nodeOf(nodes, r.cid)
	if err != nil {
		return nil, err
	}
	entries, err := NodeEntries(node)
	if fault, ok := err.(*Fault); ok && fault.Number == ErrBadNode.Number {
		fault.Cid = r.cid
	}
	if err != nil {
		return nil, err
	}
	var found []rest
	below := func(link Cid) {
		if !link.IsNone() {
			found = append(found, rest{cid: link, layers: r.layers - 1})
		}
	}
	place := len(entries.Pairs)
	for ; place > 0 && entries.Pairs[place-1].Key >= start; place-- {
		pair := entries.Pairs[place-1]
		below(pair.Link)
		found = append(found, rest{isPair: true, key: pair.Key, cid: pair.Value})
	}
	if place > 0 {
		below(entries.Pairs[place-1].Link)
	} else {
		below(entries.Left)
	}
	return found, nil
}

// TreeApply changes keys of a tree at once: each gets a value, or goes where that is the zero Cid.
//
// The nodes that this needs are asked for layer by layer, each once. Each is hashed once, and one that isn't of the CID that was asked for is a
// fault. ErrMissing and ErrBadNode have the node's CID; ErrNotTree and ErrTooManyNodes say that the nodes are no tree's, and ErrBad that a key
// is none.
func TreeApply(nodes Nodes, root Cid, changes map[string]Cid) (*Edit, error) {
	return treeApply(nodes, root, changes, false)
}

// TreeApplyKnown is TreeApply over nodes of which none is hashed: the host owes that each is of its CID, and where one isn't, nothing that is
// said of an edit holds.
func TreeApplyKnown(nodes Nodes, root Cid, changes map[string]Cid) (*Edit, error) {
	return treeApply(nodes, root, changes, true)
}

func treeApply(nodes Nodes, root Cid, changes map[string]Cid, known bool) (*Edit, error) {
	own := ordered(changes)
	answer, err := overAsked(nodes, root, own, known, apply)
	if err != nil {
		return nil, err
	}
	return editOf(answer, own), nil
}

// TreeProveChange is what changes make of a tree, and the nodes that show it to whoever knows its root, as Repository.ProveChange has it of a
// repository in memory. Nothing is changed by it. The nodes are asked for, and the faults come, as of TreeApply.
func TreeProveChange(nodes Nodes, root Cid, changes map[string]Cid) (*ChangeProof, error) {
	return treeProveChange(nodes, root, changes, false)
}

// TreeProveChangeKnown is TreeProveChange over nodes of which none is hashed, as TreeApplyKnown has them.
func TreeProveChangeKnown(nodes Nodes, root Cid, changes map[string]Cid) (*ChangeProof, error) {
	return treeProveChange(nodes, root, changes, true)
}

func treeProveChange(nodes Nodes, root Cid, changes map[string]Cid, known bool) (*ChangeProof, error) {
	own := ordered(changes)
	answer, err := overAsked(nodes, root, own, known, proveChange)
	if err != nil {
		return nil, err
	}
	return proofOf(answer, own), nil
}

// A call over the nodes of a host.
type hosted func(nodes list, cids, root span, wanted wanted, missing, out span, size *C.size_t) C.uint8_t

func apply(nodes list, cids, root span, wanted wanted, missing, out span, size *C.size_t) C.uint8_t {
	return C.tizulgech_tree_apply(nodes.at, nodes.length, nodes.ends, nodes.count, cids.at, cids.length, root.at, root.length,
		wanted.at, wanted.length, wanted.ends, wanted.count, wanted.values.at, wanted.values.length,
		missing.at, missing.length, out.at, out.length, size)
}

func proveChange(nodes list, cids, root span, wanted wanted, missing, out span, size *C.size_t) C.uint8_t {
	return C.tizulgech_tree_prove_change(nodes.at, nodes.length, nodes.ends, nodes.count, cids.at, cids.length, root.at, root.length,
		wanted.at, wanted.length, wanted.ends, wanted.count, wanted.values.at, wanted.values.length,
		missing.at, missing.length, out.at, out.length, size)
}

// What a call answers to changes over the nodes that these need, which are asked for layer by layer.
func overAsked(nodes Nodes, root Cid, changes []change, known bool, call hosted) (*reader, error) {
	given := &given{ask: nodes, known: known, places: map[Cid]int{}}
	if err := given.askBelow(root, changes); err != nil {
		return nil, err
	}
	for {
		answer, missing, err := given.answered(root, changes, call)
		if err == nil || missing.IsNone() {
			return answer, err
		}
		// Nodes that are no tree's may need another one.
		if _, there := given.places[missing]; there {
			return nil, ofTrees.with(uint8(ErrBadNode.Number), 0, missing)
		}
		if err := given.askFor([]Cid{missing}); err != nil {
			return nil, err
		}
	}
}

// The nodes for which a host was asked, each once.
type given struct {
	ask    Nodes
	known  bool
	places map[Cid]int
	nodes  [][]byte
	cids   []byte
}

// Asks for nodes that aren't here yet, and sees that they are of their CIDs, unless that is known.
func (g *given) askFor(cids []Cid) error {
	first := len(g.nodes)
	for _, cid := range cids {
		node, err := nodeOf(g.ask, cid)
		if err != nil {
			return err
		}
		if !g.known {
			// So that nothing that the host does later changes it.
			node = append([]byte(nil), node...)
		}
		g.places[cid] = len(g.nodes)
		g.nodes = append(g.nodes, node)
		g.cids = append(g.cids, cid[:]...)
	}
	if g.known {
		return nil
	}
	found, err := CidsOf(g.nodes[first:])
	if err != nil {
		return err
	}
	for place, cid := range cids {
		if found[place] != cid {
			return ofTrees.with(uint8(ErrBadNode.Number), 0, cid)
		}
	}
	return nil
}

// A link, and the changes that go below it.
type branch struct {
	cid     Cid
	changes []change
}

// Asks for all nodes that changes need, layer by layer.
func (g *given) askBelow(root Cid, changes []change) error {
	left := []branch{{root, changes}}
	for layer := 0; len(left) > 0; layer++ {
		if layer == mostNodes {
			return ofTrees.fault(uint8(ErrTooManyNodes.Number))
		}
		var fresh []branch
		var cids []Cid
		asked := map[Cid]bool{}
		for _, it := range left {
			if _, there := g.places[it.cid]; !there && !asked[it.cid] {
				asked[it.cid] = true
				fresh, cids = append(fresh, it), append(cids, it.cid)
			}
		}
		if err := g.askFor(cids); err != nil {
			return err
		}
		left = nil
		for _, it := range fresh {
			below, err := it.below(g.nodes[g.places[it.cid]])
			if err != nil {
				return err
			}
			left = append(left, below...)
		}
	}
	return nil
}

// The links of a node below which changes go, and those changes.
func (b branch) below(node []byte) ([]branch, error) {
	it, wanted := spanOf(node), wantedOf(b.changes)
	// A change goes below two links at most.
	found, err := filled(2*52*len(b.changes), ofTrees, func(out span, size *C.size_t) C.uint8_t {
		return C.tizulgech_below(it.at, it.length, wanted.at, wanted.length, wanted.ends, wanted.count, wanted.values.at, wanted.values.length,
			out.at, out.length, size)
	})
	if fault, ok := err.(*Fault); ok && fault.Number == ErrBadNode.Number {
		return nil, ofTrees.with(uint8(fault.Number), 0, b.cid)
	}
	if err != nil {
		return nil, err
	}
	var links []branch
	for answer := (reader{found}); answer.more(); {
		cid, first, count := answer.cid(), answer.number(), answer.number()
		links = append(links, branch{cid, b.changes[first : first+count]})
	}
	return links, nil
}

// What a call answers to changes over the nodes that are here, or the CID of one that is missing.
func (g *given) answered(root Cid, changes []change, call hosted) (answer *reader, missing Cid, err error) {
	nodes, cids, of, wanted := listOf(g.nodes), spanOf(g.cids), spanOf(root[:]), wantedOf(changes)
	var last C.uint8_t
	var told Cid
	// Room for the answer of nearly any edit: where it is too small all is made once more.
	room := int(nodes.length) + 128*len(g.nodes) + int(wanted.length) + 256*len(changes) + 1024
	found, err := filled(room, ofTrees, func(out span, size *C.size_t) C.uint8_t {
		last = call(nodes, cids, of, wanted, spanOf(told[:]), out, size)
		return last
	})
	switch {
	case err == nil:
		return &reader{found}, Cid{}, nil
	case last == C.TIZULGECH_MISSING:
		return nil, told, err
	case last == C.TIZULGECH_BAD_NODE:
		return nil, Cid{}, ofTrees.with(uint8(last), 0, told)
	}
	return nil, Cid{}, err
}

func editOf(answer *reader, changes []change) *Edit {
	edit := &Edit{Root: answer.cid(), Previous: make(map[string]Cid, len(changes))}
	for _, change := range changes {
		edit.Previous[change.key] = answer.cid()
	}
	for left := answer.number(); left > 0; left-- {
		edit.Drop = append(edit.Drop, answer.cid())
	}
	for answer.more() {
		cid := answer.cid()
		edit.Add = append(edit.Add, Node{cid, answer.part()})
	}
	return edit
}

// The node that a host has for a CID.
func nodeOf(nodes Nodes, cid Cid) ([]byte, error) {
	node, err := nodes(cid)
	if err == nil && node == nil {
		err = ofTrees.with(uint8(ErrMissing.Number), 0, cid)
	}
	return node, err
}
