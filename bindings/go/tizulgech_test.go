package tizulgech

import (
	"errors"
	"fmt"
	"io"
	"runtime"
	"strings"
	"sync"
	"testing"
)

const did = "did:web:example.com"

func keyOf(number int) string {
	return fmt.Sprintf("app.bsky.feed.post/%06d", number)
}

func recordOf(number int) []byte {
	return []byte{0xa1, 'a', 'k', 0x1a, 0, 1, byte(number >> 8), byte(number)}
}

func revOf(number int) string {
	letters := "234567abcdefghijklmnopqrstuvwxyz"
	var text strings.Builder
	for place := 12; place >= 0; place-- {
		text.WriteByte(letters[number>>(5*place)&31])
	}
	return text.String()
}

// A repository of so many records.
func filledWith(t *testing.T, count int) *Repository {
	t.Helper()
	repository, err := Open(2*count + 100)
	must(err)
	var writes []Write
	for number := 0; number < count; number++ {
		writes = append(writes, Put(keyOf(number), recordOf(number)))
	}
	_, err = repository.Apply(Stamp{did, revOf(1)}, writes)
	must(err)
	return repository
}

func Example() {
	repository, err := Open(1000)
	must(err)
	defer repository.Close()
	write := Create("app.bsky.feed.post/3jzfcijpj2z2a", []byte{0xa0})
	applied, err := repository.Apply(Stamp{Did: did, Rev: "3jzfcijpj2z2a"}, []Write{write})
	must(err)
	proof, err := repository.Prove(write.Key)
	must(err)
	value, err := Verify(applied.Root, proof, write.Key)
	must(err)
	fmt.Println(value == CidOf(write.Record))
	_, err = repository.Apply(Stamp{Did: did, Rev: "3jzfcijpj2z2b"}, []Write{write})
	fmt.Println(errors.Is(err, ErrKeyExists), err)
	// Output:
	// true
	// true the key is there already
}

func ExampleTreeApply() {
	root := CidOf([]byte(EmptyNode))
	nodes := map[Cid][]byte{root: []byte(EmptyNode)}
	get := func(cid Cid) ([]byte, error) { return nodes[cid], nil }
	edit, err := TreeApply(get, root, map[string]Cid{"a.b.c/d": CidOf([]byte{0xa0}), "a.b.c/e": {}})
	must(err)
	for _, cid := range edit.Drop {
		delete(nodes, cid)
	}
	for _, node := range edit.Add {
		nodes[node.Cid] = node.Bytes
	}
	value, err := TreeGet(get, edit.Root, "a.b.c/d")
	must(err)
	fmt.Println(value)
	// Output: bafyreigbtj4x7ip5legnfznufuopl4sg4knzc2cof6duas4b3q2fy6swua
}

func TestVersion(t *testing.T) {
	if LibraryVersion() != Version {
		t.Errorf("the library has the interface %d", LibraryVersion())
	}
}

// Many keys over a host's own nodes, of which each is asked for once; and an error of the host's own.
func TestHost(t *testing.T) {
	root := CidOf([]byte(EmptyNode))
	nodes, pairs, changes := map[Cid][]byte{root: []byte(EmptyNode)}, []Pair{}, map[string]Cid{}
	for number := 0; number < 3000; number++ {
		pairs = append(pairs, Pair{keyOf(number), CidOf(recordOf(number))})
		changes[keyOf(number)] = CidOf(recordOf(number))
	}
	asked := map[Cid]int{}
	get := func(cid Cid) ([]byte, error) {
		asked[cid]++
		return nodes[cid], nil
	}
	edit, err := TreeApply(get, root, changes)
	must(err)
	wanted, count, err := TreeRoot(pairs)
	must(err)
	if edit.Root != wanted || len(edit.Add) != count || len(edit.Drop) != 1 {
		t.Errorf("%v, %d nodes, and not %v, %d", edit.Root, len(edit.Add), wanted, count)
	}
	for _, node := range edit.Add {
		nodes[node.Cid] = node.Bytes
	}
	for number := 0; number < 3000; number += 2 {
		changes[keyOf(number)] = Cid{}
	}
	for _, apply := range []func(Nodes, Cid, map[string]Cid) (*Edit, error){TreeApply, TreeApplyKnown} {
		asked = map[Cid]int{}
		less, err := apply(get, edit.Root, changes)
		must(err)
		var left []Pair
		for number := 1; number < 3000; number += 2 {
			left = append(left, pairs[number])
		}
		if root, _, err := TreeRoot(left); err != nil || root != less.Root || less.Previous[keyOf(2)] != pairs[2].Cid {
			t.Errorf("%v and not %v, %v", less.Root, root, err)
		}
		for cid, times := range asked {
			if times != 1 {
				t.Errorf("%v was asked for %d times", cid, times)
			}
		}
	}
	own := errors.New("own")
	if _, err := TreeApply(func(Cid) ([]byte, error) { return nil, own }, root, changes); err != own {
		t.Errorf("%v and not the host's own error", err)
	}
}

// Parts that were read one after another are of one state, or the reader is told.
func TestChanged(t *testing.T) {
	repository := filledWith(t, 2000)
	defer repository.Close()
	reader := repository.CarReader()
	if _, err := reader.Read(make([]byte, 10)); err != nil {
		t.Fatal(err)
	}
	visited := 0
	err := repository.Pairs("", func(Pair) error {
		visited++
		if visited > 1 {
			return nil
		}
		_, err := repository.Apply(Stamp{did, revOf(2)}, []Write{Delete(keyOf(0))})
		return err
	})
	if err != ErrChanged || visited < 2 || visited >= 2000 {
		t.Errorf("%v after %d pairs", err, visited)
	}
	if _, err := io.ReadAll(reader); err != ErrChanged {
		t.Errorf("%v and not ErrChanged", err)
	}
	stopped := errors.New("stopped")
	if err := repository.Pairs("", func(Pair) error { return stopped }); err != stopped {
		t.Errorf("%v and not the visitor's own error", err)
	}
	if _, err := repository.WriteCar(full{}); err != io.ErrShortWrite {
		t.Errorf("%v and not the writer's own error", err)
	}
}

type full struct{}

func (full) Write([]byte) (int, error) { return 0, io.ErrShortWrite }

// Goroutines that share a repository wait for one another, and one that nothing has any more is let go.
func TestGoroutines(t *testing.T) {
	repository := filledWith(t, 300)
	var group sync.WaitGroup
	for reader := 0; reader < 4; reader++ {
		group.Add(1)
		go func() {
			defer group.Done()
			for turn := 0; turn < 50; turn++ {
				root, err := repository.Root()
				must(err)
				proof, err := repository.Prove(keyOf(turn))
				must(err)
				// a batch may come between both
				_, err = Verify(root, proof, keyOf(turn))
				if err != nil && !errors.Is(err, ErrMissing) {
					panic(err)
				}
			}
		}()
	}
	for turn := 0; turn < 50; turn++ {
		_, err := repository.Apply(Stamp{did, revOf(turn + 2)}, []Write{Delete(keyOf(turn))})
		must(err)
	}
	group.Wait()
	if number, err := repository.Number(); err != nil || number != 350 {
		t.Errorf("%d writes, %v", number, err)
	}
	must(repository.Close())
	must(repository.Close())
	if _, err := repository.Root(); !errors.Is(err, ErrClosed) {
		t.Errorf("%v and not ErrClosed", err)
	}
	for turn := 0; turn < 10; turn++ {
		filledWith(t, 10)
		runtime.GC()
	}
}
