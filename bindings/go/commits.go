package tizulgech

// #include <tizulgech.h>
import "C"

// A SignedCommit is what a signed commit says (AT Protocol repository v3, commit objects).
type SignedCommit struct {
	// Did says whose the repository is, and Rev is the revision.
	Did, Rev string
	// Root is the root of the tree, and Prev the commit before; today's name none, which is the zero Cid.
	Root, Prev Cid
	// Sig is the signature, which nothing here tests, and Unsigned are the bytes that were signed.
	Sig, Unsigned []byte
}

// SignedCommitBytes are the bytes of the signed commit of a stamp, which isn't tested, over the root of a tree. What is signed is CommitBytes of
// the same. An account without records begins with a commit over the root of the empty tree, whose one node is EmptyNode; a change of its key is
// a new commit over the same root.
func SignedCommitBytes(stamp Stamp, root Cid, sig []byte) ([]byte, error) {
	did, rev, of, own := spanOfText(stamp.Did), spanOfText(stamp.Rev), spanOf(root[:]), spanOf(sig)
	return filled(someRoom, ofAll, func(out span, size *C.size_t) C.uint8_t {
		return C.tizulgech_signed_commit(did.at, did.length, rev.at, rev.length, of.at, of.length, own.at, own.length, out.at, out.length, size)
	})
}

// ReadCommit is what the signed commit of these bytes says; ErrNotACommit, ErrCommitDid or ErrCommitRev say why they are none.
func ReadCommit(block []byte) (SignedCommit, error) {
	it := spanOf(block)
	found, err := filled(someRoom, ofAll, func(out span, size *C.size_t) C.uint8_t {
		return C.tizulgech_read_commit(it.at, it.length, out.at, out.length, size)
	})
	if err != nil {
		return SignedCommit{}, err
	}
	return (&reader{found}).commit(), nil
}

// FileHead is the header of a file (CARv1) with this root. Behind it come the sections of its blocks.
func FileHead(root Cid) ([]byte, error) {
	of := spanOf(root[:])
	return filled(someRoom, ofAll, func(out span, size *C.size_t) C.uint8_t {
		return C.tizulgech_file_head(of.at, of.length, out.at, out.length, size)
	})
}

// FileSection is the section of a block with this CID in a file (CARv1). Nothing is hashed.
func FileSection(cid Cid, block []byte) ([]byte, error) {
	of, it := spanOf(cid[:]), spanOf(block)
	return filled(someRoom+len(block), ofAll, func(out span, size *C.size_t) C.uint8_t {
		return C.tizulgech_file_section(of.at, of.length, it.at, it.length, out.at, out.length, size)
	})
}

// The next commit of an answer.
func (r *reader) commit() SignedCommit {
	did, rev, root, prev := string(r.part()), string(r.part()), r.cid(), r.cid()
	return SignedCommit{Did: did, Rev: rev, Root: root, Prev: prev, Sig: r.part(), Unsigned: r.part()}
}
