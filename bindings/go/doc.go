// Package tizulgech is a verified AT Protocol repository (Merkle search tree): calls of a proved library, by cgo.
//
//	repository, err := tizulgech.Open(1000)
//	defer repository.Close()
//	stamp := tizulgech.Stamp{Did: "did:web:example.com", Rev: "3jzfcijpj2z2a"}
//	write := tizulgech.Create("app.bsky.feed.post/3jzfcijpj2z2a", []byte{0xa0})
//	applied, err := repository.Apply(stamp, []tizulgech.Write{write})
//	proof, err := repository.Prove(write.Key)
//	value, err := tizulgech.Verify(applied.Root, proof, write.Key)
//
// A repository in memory: Open and Repository, its writes, which Put, Create, Update and Delete make, and Applied, what a batch leaves. What a
// batch is tested by: CheckWrite, CheckRecord, CheckStamp, IsDid, IsTid, IsRepositoryKey. Its file: Car, WriteCar and CarReader, which is an
// io.Reader. Files as servers export them: CheckCar, Export, OpenCar.
//
// A tree whose nodes a program keeps elsewhere: TreeApply, TreeGet, TreePath, TreeList, TreeProveChange, TreeDifference,
// Edit, Links, NodeEntries, EmptyNode.
//
// Records as JSON: RecordJSON, JSONRecord; the CIDs of blobs: LinkText, LinkFromText.
//
// Proofs: Verify for single keys; VerifyChange, VerifyInversion and ChangeProof for what a batch changed.
//
// The rest: Cid; CommitBytes, what is signed; TreeRoot and ListingCar, from scratch; Layer and IsKey.
//
// What a call refuses is a *Fault, whose number and name are those of the C header, and nothing is changed by it. The zero Cid stands where there
// is nothing. Any number of goroutines may make any calls at once; those of one repository wait for one another.
//
// The library is found by pkg-config. What is proved ends at its calls: of this package nothing is.
package tizulgech
