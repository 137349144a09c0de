package tizulgech

import "fmt"

// A Fault says why a call was refused; nothing is changed by such a call.
//
// errors.Is tells by its name which fault it is, as errors.Is(err, tizulgech.ErrKeyExists), and errors.As gives the rest of it.
type Fault struct {
	// Number and Name are those of the C header.
	Number int
	Name   string
	// Place is that of the write in its batch, of the change, or of the record, from 0 on; 0 where there is none.
	Place int
	// Cid is that of the node which is missing or is none; the zero Cid where no node is meant.
	Cid Cid
	// Path is the way to what is wrong in a JSON text, from the outside: .key and [place]; "" where the whole text is meant.
	Path string

	sentence string
}

// Error is a sentence.
func (f *Fault) Error() string {
	switch {
	case f.Cid != (Cid{}):
		return fmt.Sprintf("%s: %s", f.sentence, f.Cid)
	case f.Path != "":
		return fmt.Sprintf("%s: %s", f.Path, f.sentence)
	case f.Place > 0:
		return fmt.Sprintf("at place %d: %s", f.Place, f.sentence)
	}
	return f.sentence
}

// Is says whether both have one name.
func (f *Fault) Is(target error) bool {
	other, ok := target.(*Fault)
	return ok && f.Name == other.Name
}

// The faults of a kind of call, by their numbers.
type faults map[uint8]*Fault

func (of faults) add(number uint8, name, sentence string) *Fault {
	of[number] = &Fault{Number: int(number), Name: name, sentence: sentence}
	return of[number]
}

// What a call answered, as an error: nil for 0.
func (of faults) fault(number uint8) error {
	if number == 0 {
		return nil
	}
	return of.with(number, 0, Cid{})
}

// The same with a place and a CID.
func (of faults) with(number uint8, place int, cid Cid) error {
	found, ok := of[number]
	if !ok {
		found, ok = ofAll[number]
	}
	if !ok {
		found = &Fault{Number: int(number), sentence: fmt.Sprintf("number %d", number)}
	}
	told := *found
	told.Place, told.Cid = place, cid
	return &told
}

// Some numbers say something else of the text of a CID, and of a tree.
var ofAll, ofCids, ofTrees = faults{}, faults{}, faults{}

// Of a record, which is DAG-CBOR: the first fault.
var (
	ErrTruncated    = ofAll.add(1, "TRUNCATED", "the bytes end within a value")
	ErrLongHead     = ofAll.add(2, "LONG_HEAD", "a head is longer than it needs to be")
	ErrIndefinite   = ofAll.add(3, "INDEFINITE", "an indefinite length")
	ErrBadTag       = ofAll.add(4, "BAD_TAG", "a tag that isn't 42")
	ErrBadLink      = ofAll.add(5, "BAD_LINK", "a link that is no CID")
	ErrKeyNotText   = ofAll.add(6, "KEY_NOT_TEXT", "a key of a map that isn't text")
	ErrKeyOrder     = ofAll.add(7, "KEY_ORDER", "keys of a map that are out of order or stand twice")
	ErrBadUTF8      = ofAll.add(8, "BAD_UTF8", "text that isn't UTF-8")
	ErrFloat        = ofAll.add(9, "FLOAT", "a floating-point number")
	ErrSimple       = ofAll.add(10, "SIMPLE", "a simple value")
	ErrIntegerRange = ofAll.add(11, "INTEGER_RANGE", "an integer outside of 64 bits with sign")
	ErrTooDeep      = ofAll.add(12, "TOO_DEEP", "values that are nested too deep")
	ErrTrailing     = ofAll.add(13, "TRAILING", "bytes after the value")
)

// Of a batch, and of a repository.
var (
	ErrBadKey     = ofAll.add(20, "BAD_KEY", "the key is not that of a record")
	ErrNotAMap    = ofAll.add(21, "NOT_A_MAP", "the record is not a map")
	ErrRecordSize = ofAll.add(22, "RECORD_SIZE", "the record is too long")
	ErrKeyExists  = ofAll.add(23, "KEY_EXISTS", "the key is there already")
	ErrNone       = ofAll.add(24, "NONE", "there is no such key")
	ErrWritesFull = ofAll.add(25, "WRITES_FULL", "the repository takes no more writes")
	ErrEmptyBatch = ofAll.add(26, "EMPTY_BATCH", "the batch is empty")
	ErrBadDid     = ofAll.add(27, "BAD_DID", "the DID is not one")
	ErrBadRev     = ofAll.add(28, "BAD_REV", "the revision is not a timestamp identifier")
	ErrRevOrder   = ofAll.add(29, "REV_ORDER", "the revision is not after the last one")
	ErrOpen       = ofAll.add(249, "OPEN", "the repository is open already")
	ErrClosed     = ofAll.add(250, "CLOSED", "the repository is closed")
)

// Of nodes, listings and changes.
var (
	ErrBadNode      = ofAll.add(30, "BAD_NODE", "a block is no node, or not the one of its CID")
	ErrTooManyNodes = ofAll.add(31, "TOO_MANY_NODES", "the path is longer than any tree is deep")
	ErrNotBuilt     = ofAll.add(32, "NOT_BUILT", "a repository doesn't take these records")
	ErrOtherValue   = ofAll.add(33, "OTHER_VALUE", "a key has another value")
	ErrOtherRoot    = ofAll.add(34, "OTHER_ROOT", "the changes lead to another root")
	ErrNotTree      = ofAll.add(35, "NOT_TREE", "the nodes aren't a tree's")
	ErrBelow        = ofTrees.add(1, "BELOW", "the key is below another node")
	ErrMissing      = ofTrees.add(2, "MISSING", "a node that is needed isn't there")
	ErrNotAscending = ofTrees.add(3, "NOT_ASCENDING", "the keys don't ascend")
	errTreeKey      = ofTrees.add(20, "BAD_KEY", "a key has no bytes or more than 1,024")
)

// Of the text of a CID, or of its bytes.
var (
	ErrCidLength  = ofCids.add(1, "CID_LENGTH", "the text doesn't have 59 letters")
	ErrCidPrefix  = ofCids.add(2, "CID_PREFIX", "the text doesn't begin with b")
	ErrCidLetter  = ofCids.add(3, "CID_LETTER", "a letter that base32 doesn't have")
	ErrCidBits    = ofCids.add(4, "CID_BITS", "bits behind the last byte")
	ErrCidProfile = ofCids.add(5, "CID_PROFILE", "not a CIDv1 of DAG-CBOR with SHA-256")
)

// Of signed commits, of messages, and of batches that are signed.
var (
	ErrMessageSize       = ofAll.add(107, "MESSAGE_SIZE", "the message is too long")
	ErrNotAMessage       = ofAll.add(108, "NOT_A_MESSAGE", "no message #commit")
	ErrMessageCbor       = ofAll.add(109, "MESSAGE_CBOR", "the message is not DAG-CBOR")
	ErrMessageNotAMap    = ofAll.add(110, "MESSAGE_NOT_A_MAP", "the message is no map")
	ErrBadField          = ofAll.add(111, "BAD_FIELD", "a field is missing or of another kind")
	ErrRebase            = ofAll.add(112, "REBASE", "a rebase")
	ErrTooBig            = ofAll.add(113, "TOO_BIG", "the message does not hold all")
	ErrTooManyOps        = ofAll.add(114, "TOO_MANY_OPS", "too many operations")
	ErrBlocksSize        = ofAll.add(115, "BLOCKS_SIZE", "the blocks have too many bytes")
	ErrBadSince          = ofAll.add(116, "BAD_SINCE", "the revision before is not a timestamp identifier")
	ErrSinceOrder        = ofAll.add(117, "SINCE_ORDER", "the revision is not after the one before")
	ErrBadTime           = ofAll.add(118, "BAD_TIME", "the time is none")
	ErrBadOp             = ofAll.add(119, "BAD_OP", "an operation is none")
	ErrDoubledPath       = ofAll.add(120, "DOUBLED_PATH", "an operation has the path of another")
	ErrOtherPrevious     = ofAll.add(121, "OTHER_PREVIOUS", "the repository had another root before")
	ErrNotTheRoot        = ofAll.add(122, "NOT_THE_ROOT", "the root of the blocks is not the commit")
	ErrOtherDid          = ofAll.add(125, "OTHER_DID", "the commit is of another repository")
	ErrOtherRev          = ofAll.add(126, "OTHER_REV", "the commit has another revision")
	ErrMessageRecordSize = ofAll.add(128, "MESSAGE_RECORD_SIZE", "the record of an operation is too long for a message")
	ErrNodeMissing       = ofAll.add(129, "NODE_MISSING", "a node that is needed is not in the message")
	ErrRootMoved         = ofAll.add(130, "ROOT_MOVED", "the repository has another root than was signed over")
	ErrBadSeq            = ofAll.add(131, "BAD_SEQ", "the number is none of the stream")
	ErrNoBatch           = ofAll.add(132, "NO_BATCH", "the repository has no batch")
)

// Of records as JSON, of files and of signed commits.
var (
	ErrNotJSON       = ofAll.add(60, "NOT_JSON", "the text is not JSON")
	ErrDoubledKey    = ofAll.add(61, "DOUBLED_KEY", "a key stands twice in an object")
	ErrJSONFloat     = ofAll.add(62, "JSON_FLOAT", "a number has a point or an exponent")
	ErrJSONRange     = ofAll.add(63, "JSON_RANGE", "a whole number is outside of -(2^53 - 1) to 2^53 - 1")
	ErrJSONLink      = ofAll.add(64, "JSON_LINK", "a link holds no CID of version 1 in base 32")
	ErrJSONBytes     = ofAll.add(65, "JSON_BYTES", "bytes are not in base 64")
	ErrJSONDollar    = ofAll.add(66, "JSON_DOLLAR", "an object with $link or $bytes has other keys")
	ErrJSONDepth     = ofAll.add(67, "JSON_DEPTH", "lists and maps lie more than 64 levels deep")
	ErrJSONNotAMap   = ofAll.add(68, "JSON_NOT_A_MAP", "the value is not a map")
	ErrNoJSONForm    = ofAll.add(69, "NO_JSON_FORM", "the record has no JSON form")
	ErrNotTheTree    = ofAll.add(70, "NOT_THE_TREE", "the file does not have a whole tree under its commit")
	ErrNotACommit    = ofAll.add(100, "NOT_A_COMMIT", "the bytes are not those of a signed commit")
	ErrCommitDid     = ofAll.add(101, "COMMIT_DID", "the DID of the commit is not one")
	ErrCommitRev     = ofAll.add(102, "COMMIT_REV", "the revision of the commit is not a timestamp identifier")
	ErrCARHeader     = ofAll.add(103, "CAR_HEADER", "the file does not begin as a CAR with one root")
	ErrCARLength     = ofAll.add(104, "CAR_LENGTH", "the length of a section is not a number in its shortest form")
	ErrCARTruncated  = ofAll.add(105, "CAR_TRUNCATED", "the file ends within a section")
	ErrCARCid        = ofAll.add(106, "CAR_CID", "a section does not begin with a CID of a block")
	ErrMisnamed      = ofAll.add(123, "MISNAMED", "a block has another CID")
	ErrCommitMissing = ofAll.add(124, "COMMIT_MISSING", "the commit is not among the blocks")
	ErrRecordMissing = ofAll.add(127, "RECORD_MISSING", "a record is missing")
)

// Of any call.
var (
	ErrSmall    = ofAll.add(251, "SMALL", "the room is too small")
	ErrBad      = ofAll.add(252, "BAD", "an argument that is none")
	ErrClash    = ofAll.add(253, "CLASH", "two blocks clash")
	ErrFull     = ofAll.add(254, "FULL", "the store is full")
	ErrNoMemory = ofAll.add(255, "NO_MEMORY", "out of memory")
)
