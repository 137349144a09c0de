package tizulgech

// #include <tizulgech.h>
import "C"

import "unsafe"

// A Cid names a block, as the AT Protocol has it: CIDv1, DAG-CBOR, SHA-256. It is compared by ==. The zero Cid is none, and stands where there
// is nothing.
type Cid [36]byte

// CidOf is the CID of a block.
func CidOf(block []byte) (cid Cid) {
	it := spanOf(block)
	C.tizulgech_cid(it.at, it.length, cid.room(), C.size_t(len(cid)))
	return cid
}

// CidsOf are the CIDs of many blocks, in their order: several are hashed side by side.
func CidsOf(blocks [][]byte) ([]Cid, error) {
	it := listOf(blocks)
	found, err := filled(len(Cid{})*len(blocks), ofAll, func(out span, size *C.size_t) C.uint8_t {
		return C.tizulgech_cids(it.at, it.length, it.ends, it.count, out.at, out.length, size)
	})
	if err != nil {
		return nil, err
	}
	answer := reader{found}
	cids := make([]Cid, len(blocks))
	for place := range cids {
		cids[place] = answer.cid()
	}
	return cids, nil
}

// CidFrom is the CID with these 36 bytes; ErrCidProfile where they are none.
func CidFrom(bytes []byte) (cid Cid, err error) {
	var text [59]byte
	it := spanOf(bytes)
	if !bool(C.tizulgech_cid_text(it.at, it.length, (*C.uint8_t)(unsafe.Pointer(&text[0])), C.size_t(len(text)))) {
		return Cid{}, ofCids.fault(uint8(ErrCidProfile.Number))
	}
	copy(cid[:], bytes)
	return cid, nil
}

// ParseCid is the CID with this text; ErrCidLength, ErrCidPrefix, ErrCidLetter, ErrCidBits or ErrCidProfile say why there is none.
func ParseCid(text string) (cid Cid, err error) {
	it := spanOfText(text)
	if number := C.tizulgech_cid_from_text(it.at, it.length, cid.room(), C.size_t(len(cid))); number != C.TIZULGECH_DONE {
		return Cid{}, ofCids.fault(uint8(number))
	}
	return cid, nil
}

// String is the text of a CID, 59 letters; none of the zero Cid.
func (c Cid) String() string {
	var text [59]byte
	it := spanOf(c[:])
	if !bool(C.tizulgech_cid_text(it.at, it.length, (*C.uint8_t)(unsafe.Pointer(&text[0])), C.size_t(len(text)))) {
		return ""
	}
	return string(text[:])
}

// IsNone says whether it is the zero Cid, which stands where there is nothing.
func (c Cid) IsNone() bool {
	return c == Cid{}
}

// Layer is the layer of a key in a tree, from 0 to 128: half of the leading zero bits of its SHA-256.
func Layer(key string) int {
	it := spanOfText(key)
	return int(C.tizulgech_layer(it.at, it.length))
}

// IsKey says whether a tree may have the key: 1 to 1,024 bytes.
func IsKey(key string) bool {
	it := spanOfText(key)
	return bool(C.tizulgech_is_key(it.at, it.length))
}

// IsRepositoryKey says whether a repository may have a record under the key: a collection, a slash and a record key.
func IsRepositoryKey(key string) bool {
	it := spanOfText(key)
	return bool(C.tizulgech_is_repository_key(it.at, it.length))
}

// IsDid says whether a stamp may have this DID.
func IsDid(did string) bool {
	it := spanOfText(did)
	return bool(C.tizulgech_is_did(it.at, it.length))
}

// IsTid says whether a stamp may have this revision: a timestamp identifier.
func IsTid(rev string) bool {
	it := spanOfText(rev)
	return bool(C.tizulgech_is_tid(it.at, it.length))
}

// A Stamp is what a batch is accepted under: whose the repository is, and the revision, which is after that of the batch before.
type Stamp struct {
	Did, Rev string
}

// CheckStamp is the fault of a stamp after the revision of the batch before, which is "" where there was none: ErrBadDid, ErrBadRev or
// ErrRevOrder.
func CheckStamp(before string, stamp Stamp) error {
	last, did, rev := spanOfText(before), spanOfText(stamp.Did), spanOfText(stamp.Rev)
	return ofAll.fault(uint8(C.tizulgech_stamp_fault(last.at, last.length, did.at, did.length, rev.at, rev.length)))
}

// NextTid is the timestamp identifier after the last one, which is "" where there was none, at so many microseconds since 1970 by the clock of a
// number from 0 to 1,023. Where this time isn't after the last one, as where a clock has gone back, it is that of the microsecond behind the last
// one's: so it is always after the last one. ErrBadRev, the last one is none; ErrRevOrder, none is after it; ErrBad, a number is out of its range.
func NextTid(last string, micros, clock uint64) (string, error) {
	own := spanOfText(last)
	found, err := filled(someRoom, ofAll, func(out span, size *C.size_t) C.uint8_t {
		return C.tizulgech_next_tid(own.at, own.length, C.uint64_t(micros), C.uint64_t(clock), out.at, out.length, size)
	})
	return string(found), err
}

// CommitBytes are the bytes of the unsigned commit of a stamp, which isn't tested, over the root of a tree: what a host signs.
func CommitBytes(stamp Stamp, root Cid) ([]byte, error) {
	did, rev, of := spanOfText(stamp.Did), spanOfText(stamp.Rev), spanOf(root[:])
	return filled(someRoom, ofAll, func(out span, size *C.size_t) C.uint8_t {
		return C.tizulgech_commit_bytes(did.at, did.length, rev.at, rev.length, of.at, of.length, out.at, out.length, size)
	})
}

// A Kind is what a write does; the numbers are those of the C header.
type Kind uint8

// What writes do: PutKind, whatever stands under the key; CreateKind, where nothing stands there; UpdateKind, where another record does;
// DeleteKind, the key goes.
const (
	PutKind Kind = iota
	CreateKind
	UpdateKind
	DeleteKind
)

// A Write is one of a batch; Put, Create, Update and Delete make it. Its record is DAG-CBOR, which the program encodes. Whether a repository
// takes it is only said by CheckWrite, and by Repository.Apply.
type Write struct {
	Kind   Kind
	Key    string
	Record []byte
}

// Put is a write by which the record stands under the key, whatever stood there.
func Put(key string, record []byte) Write {
	return Write{PutKind, key, record}
}

// Create is a write by which the record stands under the key, where nothing stood there.
func Create(key string, record []byte) Write {
	return Write{CreateKind, key, record}
}

// Update is a write by which the record stands under the key, where another one stood there.
func Update(key string, record []byte) Write {
	return Write{UpdateKind, key, record}
}

// Delete is a write by which the key goes with its record.
func Delete(key string) Write {
	return Write{DeleteKind, key, nil}
}

// CheckWrite is the fault of a write, by whether there is a record under its key: ErrBadKey; ErrRecordSize, ErrNotAMap or a fault of DAG-CBOR;
// ErrKeyExists for a create of a key that is there, ErrNone for an update or a delete of one that isn't; ErrBad for a kind that is none.
func CheckWrite(write Write, there bool) error {
	key, record := spanOfText(write.Key), spanOf(write.Record)
	return ofAll.fault(uint8(C.tizulgech_write_fault(C.uint8_t(write.Kind), C.bool(there), key.at, key.length, record.at, record.length)))
}

// CheckRecord is the first fault of bytes that are to be one value in DAG-CBOR.
func CheckRecord(bytes []byte) error {
	it := spanOf(bytes)
	return ofAll.fault(uint8(C.tizulgech_record_fault(it.at, it.length)))
}

// A Pair is a key and the CID of its record.
type Pair struct {
	Key string
	Cid Cid
}

// A Record is a key and its bytes.
type Record struct {
	Key   string
	Bytes []byte
}

// TreeRoot is the root and the number of nodes of the tree of these pairs, whose keys ascend: ErrNotAscending where they don't.
func TreeRoot(pairs []Pair) (root Cid, nodes int, err error) {
	keys := make([]string, len(pairs))
	var cids []byte
	for place, pair := range pairs {
		keys[place] = pair.Key
		cids = append(cids, pair.Cid[:]...)
	}
	own, values := listOfTexts(keys), spanOf(cids)
	var count C.size_t
	number := C.tizulgech_tree_root(own.at, own.length, own.ends, own.count, values.at, values.length, root.room(), C.size_t(len(root)), &count)
	if number != C.TIZULGECH_DONE {
		return Cid{}, 0, ofTrees.fault(uint8(number))
	}
	return root, int(count), nil
}

// ListingCar is the CAR file of a repository whose one batch puts these records under this stamp: ErrNotBuilt where a repository doesn't take
// them, or not under this stamp, or there are none.
func ListingCar(stamp Stamp, records []Record) ([]byte, error) {
	keys, blocks := make([]string, len(records)), make([][]byte, len(records))
	room := someRoom
	for place, record := range records {
		keys[place], blocks[place] = record.Key, record.Bytes
		// Room for most files: where it is too small all is made once more.
		room += 2*(len(record.Key)+len(record.Bytes)) + 300
	}
	did, rev, own, values := spanOfText(stamp.Did), spanOfText(stamp.Rev), listOfTexts(keys), listOf(blocks)
	return filled(room, ofTrees, func(out span, size *C.size_t) C.uint8_t {
		return C.tizulgech_listing_car(did.at, did.length, rev.at, rev.length, own.at, own.length, own.ends, own.count,
			values.at, values.length, values.ends, values.count, out.at, out.length, size)
	})
}

// A Link is what stands below a node: another node, or a record.
type Link struct {
	IsNode bool
	Cid    Cid
}

// Links are what stands below a node, in the order of a CAR file; ErrBadNode for a block that is no node.
func Links(node []byte) ([]Link, error) {
	it := spanOf(node)
	found, err := filled(someRoom, ofAll, func(out span, size *C.size_t) C.uint8_t {
		return C.tizulgech_links(it.at, it.length, out.at, out.length, size)
	})
	if err != nil {
		return nil, err
	}
	var links []Link
	for answer := (reader{found}); answer.more(); {
		isNode := answer.take(1)[0] == 1
		links = append(links, Link{isNode, answer.cid()})
	}
	return links, nil
}

// Entries are the pairs and the links of a node, from the front: the link before its first key, and its pairs. A link is the zero Cid where there
// is none.
type Entries struct {
	Left  Cid
	Pairs []Entry
}

// An Entry is a pair of a node: a key, its record's CID, and the link behind it.
type Entry struct {
	Key         string
	Value, Link Cid
}

// NodeEntries are the pairs and the links of a node; ErrBadNode for a block that is no node.
func NodeEntries(node []byte) (Entries, error) {
	it := spanOf(node)
	found, err := filled(someRoom+2*len(node), ofTrees, func(out span, size *C.size_t) C.uint8_t {
		return C.tizulgech_node_entries(it.at, it.length, out.at, out.length, size)
	})
	if err != nil {
		return Entries{}, err
	}
	answer := reader{found}
	entries := Entries{Left: answer.cid()}
	for answer.more() {
		key, value := string(answer.part()), answer.cid()
		entries.Pairs = append(entries.Pairs, Entry{key, value, answer.cid()})
	}
	return entries, nil
}
