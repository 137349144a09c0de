package tizulgech

import (
	"bytes"
	"encoding/hex"
	"encoding/json"
	"errors"
	"io"
	"os"
	"reflect"
	"regexp"
	"sort"
	"strconv"
	"strings"
	"testing"
)

// The table of calls and answers that the tests of all bindings read.
type table struct {
	Faults       map[string]int
	Calls        []item
	Repositories []struct {
		Name  string
		Limit int
		Fault string
		Steps []item
	}
}

// A case: a call, what it is given, and its answer or its fault.
type item struct {
	Call, Fault   string
	Place         *int
	Cid           *string
	Path          *string
	Answer        any
	Bytes, Block  string
	Blocks, Proof []string
	Write         []string
	Writes        [][]string
	There         bool
	Key, Text     string
	Did, Rev      string
	Before, After string
	Root, Start   string
	Node          string
	Most, Limit   int
	Record, File  string
	Message, Of   string
	Previous, Sig string
	Seq           uint64
	Last          string
	Micros, Clock uint64
	Time, Since   string
	Pairs         [][2]string
	Records       [][2]string
	// A list of texts, or an object from CIDs to them; a list of three, or an object from keys to CIDs.
	Nodes, Changes json.RawMessage
}

func tableOf(t *testing.T) (found table) {
	t.Helper()
	text, err := os.ReadFile("../cases.json")
	if err != nil {
		t.Fatal(err)
	}
	if err := json.Unmarshal(text, &found); err != nil {
		t.Fatal(err)
	}
	return found
}

var times = regexp.MustCompile(`^(.+)\*(\d+)$`)

// Text of the table, in which x*n stands for n times x.
func whole(text string) string {
	found := times.FindStringSubmatch(text)
	if found == nil {
		return text
	}
	count, err := strconv.Atoi(found[2])
	must(err)
	return strings.Repeat(found[1], count)
}

func must(err error) {
	if err != nil {
		panic(err)
	}
}

// Bytes, which may stand in parts with a space between two.
func data(text string) (found []byte) {
	for _, part := range strings.Split(text, " ") {
		bytes, err := hex.DecodeString(whole(part))
		must(err)
		found = append(found, bytes...)
	}
	return found
}

var zeros = regexp.MustCompile(`(?:00){1000,}`)

// Bytes as the table has them: a long run of zeros is one word.
func packed(bytes []byte) string {
	var words []string
	left := hex.EncodeToString(bytes)
	for len(left) > 0 {
		found := zeros.FindStringIndex(left)
		for found != nil && found[0]%2 == 1 {
			// It begins within a byte: the run is a digit shorter on both sides.
			found = []int{found[0] + 1, found[1] - 1}
		}
		if found == nil {
			words, left = append(words, left), ""
			continue
		}
		if found[0] > 0 {
			words = append(words, left[:found[0]])
		}
		words, left = append(words, "00*"+strconv.Itoa((found[1]-found[0])/2)), left[found[1]:]
	}
	return strings.Join(words, " ")
}

func allData(texts []string) [][]byte {
	found := make([][]byte, len(texts))
	for place, text := range texts {
		found[place] = data(text)
	}
	return found
}

func cidIn(text string) Cid {
	cid, err := ParseCid(text)
	must(err)
	return cid
}

func valueIn(text *string) Cid {
	if text == nil {
		return Cid{}
	}
	return cidIn(*text)
}

func writeIn(words []string) Write {
	switch words[0] {
	case "put":
		return Put(words[1], data(words[2]))
	case "create":
		return Create(words[1], data(words[2]))
	case "update":
		return Update(words[1], data(words[2]))
	}
	return Delete(words[1])
}

func (it item) stamp() Stamp {
	return Stamp{Did: it.Did, Rev: it.Rev}
}

// The nodes of a proof.
func (it item) given() [][]byte {
	var found []string
	must(json.Unmarshal(it.Nodes, &found))
	return allData(found)
}

// The nodes of a host.
func (it item) host() Nodes {
	var found map[string]string
	must(json.Unmarshal(it.Nodes, &found))
	return func(cid Cid) ([]byte, error) {
		if node, ok := found[cid.String()]; ok {
			return data(node), nil
		}
		return nil, nil
	}
}

func (it item) told() []KeyChange {
	var found [][3]*string
	must(json.Unmarshal(it.Changes, &found))
	changes := make([]KeyChange, len(found))
	for place, it := range found {
		changes[place] = KeyChange{*it[0], valueIn(it[1]), valueIn(it[2])}
	}
	return changes
}

func (it item) wanted() map[string]Cid {
	var found map[string]*string
	must(json.Unmarshal(it.Changes, &found))
	changes := map[string]Cid{}
	for key, value := range found {
		changes[key] = valueIn(value)
	}
	return changes
}

// What is answered, as JSON has it.

type object = map[string]any

func valueOf(cid Cid) any {
	if cid.IsNone() {
		return nil
	}
	return cid.String()
}

func hexesOf(blocks [][]byte) []any {
	found := []any{}
	for _, block := range blocks {
		found = append(found, hex.EncodeToString(block))
	}
	return found
}

func pairsOf(pairs []Pair) []any {
	found := []any{}
	for _, pair := range pairs {
		found = append(found, []any{pair.Key, pair.Cid.String()})
	}
	return found
}

func changesOf(changes []KeyChange) []any {
	found := []any{}
	for _, change := range changes {
		found = append(found, []any{change.Key, valueOf(change.Before), valueOf(change.After)})
	}
	return found
}

func textOr(text string) any {
	if text == "" {
		return nil
	}
	return text
}

func commitWith(it SignedCommit) any {
	return object{"did": it.Did, "rev": it.Rev, "root": it.Root.String(), "prev": valueOf(it.Prev), "sig": hex.EncodeToString(it.Sig), "unsigned": hex.EncodeToString(it.Unsigned)}
}

func checkedWith(it CheckedCommit) any {
	blocks := []any{}
	for _, block := range it.Blocks {
		blocks = append(blocks, []any{block.Cid.String(), packed(block.Bytes)})
	}
	return object{"commit": commitWith(it.Commit), "seq": float64(it.Seq), "cid": it.Cid.String(), "since": textOr(it.Since), "time": it.Time, "operations": changesOf(it.Operations), "blocks": blocks}
}

// The file of an account without records.
func (it item) emptyAccount() ([]byte, error) {
	root := CidOf([]byte(EmptyNode))
	signed, err := SignedCommitBytes(it.stamp(), root, data(it.Sig))
	if err != nil {
		return nil, err
	}
	head, err := FileHead(CidOf(signed))
	must(err)
	first, err := FileSection(CidOf(signed), signed)
	must(err)
	second, err := FileSection(root, []byte(EmptyNode))
	return append(append(head, first...), second...), err
}

func (it item) writes() (writes []Write) {
	for _, words := range it.Writes {
		writes = append(writes, writeIn(words))
	}
	return writes
}

func editWith(edit *Edit) any {
	add, drop, previous := []any{}, []any{}, []any{}
	sort.Slice(edit.Add, func(one, other int) bool { return edit.Add[one].Cid.String() < edit.Add[other].Cid.String() })
	for _, node := range edit.Add {
		add = append(add, []any{node.Cid.String(), hex.EncodeToString(node.Bytes)})
	}
	sort.Slice(edit.Drop, func(one, other int) bool { return edit.Drop[one].String() < edit.Drop[other].String() })
	for _, cid := range edit.Drop {
		drop = append(drop, cid.String())
	}
	for _, change := range ordered(edit.Previous) {
		previous = append(previous, []any{change.key, valueOf(change.value)})
	}
	return object{"root": edit.Root.String(), "add": add, "drop": drop, "previous": previous}
}

// Each call of the table, by the header's name of it.
var calls = map[string]func(it item) (any, error){
	"record_fault":      func(it item) (any, error) { return nil, CheckRecord(data(it.Bytes)) },
	"write_fault":       func(it item) (any, error) { return nil, CheckWrite(writeIn(it.Write), it.There) },
	"layer":             func(it item) (any, error) { return float64(Layer(it.Key)), nil },
	"is_key":            func(it item) (any, error) { return IsKey(whole(it.Key)), nil },
	"is_repository_key": func(it item) (any, error) { return IsRepositoryKey(it.Key), nil },
	"is_did":            func(it item) (any, error) { return IsDid(it.Did), nil },
	"is_tid":            func(it item) (any, error) { return IsTid(it.Rev), nil },
	"cid":               func(it item) (any, error) { return CidOf(data(it.Block)).String(), nil },
	"cids": func(it item) (any, error) {
		cids, err := CidsOf(allData(it.Blocks))
		found := []any{}
		for _, cid := range cids {
			found = append(found, cid.String())
		}
		return found, err
	},
	"cid_text": func(it item) (any, error) {
		cid, err := CidFrom(data(it.Bytes))
		return cid.String(), err
	},
	"cid_from_text": func(it item) (any, error) {
		cid, err := ParseCid(it.Text)
		return hex.EncodeToString(cid[:]), err
	},
	"stamp_fault": func(it item) (any, error) { return nil, CheckStamp(it.Before, it.stamp()) },
	"commit_bytes": func(it item) (any, error) {
		found, err := CommitBytes(it.stamp(), cidIn(it.Root))
		return hex.EncodeToString(found), err
	},
	"signed_commit": func(it item) (any, error) {
		found, err := SignedCommitBytes(it.stamp(), cidIn(it.Root), data(it.Sig))
		return hex.EncodeToString(found), err
	},
	"next_tid": func(it item) (any, error) {
		return NextTid(it.Last, it.Micros, it.Clock)
	},
	"read_commit": func(it item) (any, error) {
		found, err := ReadCommit(data(it.Bytes))
		return commitWith(found), err
	},
	"file_head": func(it item) (any, error) {
		found, err := FileHead(cidIn(it.Root))
		return hex.EncodeToString(found), err
	},
	"file_section": func(it item) (any, error) {
		found, err := FileSection(cidIn(it.Of), data(it.Block))
		return hex.EncodeToString(found), err
	},
	"empty_account": func(it item) (any, error) {
		found, err := it.emptyAccount()
		return hex.EncodeToString(found), err
	},
	"check_commit": func(it item) (any, error) {
		found, err := CheckCommit(cidIn(it.Previous), data(it.Message))
		return checkedWith(found), err
	},
	"tree_root": func(it item) (any, error) {
		var pairs []Pair
		for _, pair := range it.Pairs {
			pairs = append(pairs, Pair{pair[0], cidIn(pair[1])})
		}
		root, nodes, err := TreeRoot(pairs)
		return []any{root.String(), float64(nodes)}, err
	},
	"listing_car": func(it item) (any, error) {
		var records []Record
		for _, record := range it.Records {
			records = append(records, Record{record[0], data(record[1])})
		}
		found, err := ListingCar(it.stamp(), records)
		return hex.EncodeToString(found), err
	},
	"links": func(it item) (any, error) {
		links, err := Links(data(it.Node))
		found := []any{}
		for _, link := range links {
			found = append(found, []any{link.IsNode, link.Cid.String()})
		}
		return found, err
	},
	"node_entries": func(it item) (any, error) {
		entries, err := NodeEntries(data(it.Node))
		pairs := []any{}
		for _, pair := range entries.Pairs {
			pairs = append(pairs, []any{pair.Key, pair.Value.String(), valueOf(pair.Link)})
		}
		return object{"left": valueOf(entries.Left), "pairs": pairs}, err
	},
	"record_json": func(it item) (any, error) { return RecordJSON(data(it.Record)) },
	"json_record": func(it item) (any, error) {
		found, err := JSONRecord(it.Text)
		return hex.EncodeToString(found), err
	},
	"link_text": func(it item) (any, error) { return LinkText(data(it.Bytes)) },
	"link_from_text": func(it item) (any, error) {
		found, err := LinkFromText(it.Text)
		return hex.EncodeToString(found), err
	},
	"check_car": func(it item) (any, error) {
		found, err := CheckCar(data(it.File))
		return object{"commit": found.Commit.String(), "root": found.Root.String(), "count": float64(found.Count), "did": found.Did, "rev": found.Rev}, err
	},
	"open_car": func(it item) (any, error) {
		r, err := OpenCar(it.Limit, data(it.File))
		if err != nil {
			return nil, err
		}
		root, err := r.Root()
		must(err)
		number, err := r.Number()
		must(err)
		pairs, err := r.List("", 1000)
		must(err)
		return object{"root": root.String(), "number": float64(number), "pairs": pairsOf(pairs)}, r.Close()
	},
	"verify": func(it item) (any, error) {
		value, err := Verify(cidIn(it.Root), allData(it.Proof), it.Key)
		return valueOf(value), err
	},
	"verify_change": func(it item) (any, error) {
		return nil, VerifyChange(cidIn(it.Before), cidIn(it.After), it.given(), it.told())
	},
	"verify_inversion": func(it item) (any, error) {
		return nil, VerifyInversion(cidIn(it.Before), cidIn(it.After), it.given(), it.told())
	},
	"tree_get": func(it item) (any, error) {
		value, err := TreeGet(it.host(), cidIn(it.Root), it.Key)
		return valueOf(value), err
	},
	"tree_path": func(it item) (any, error) {
		path, value, err := TreePath(it.host(), cidIn(it.Root), it.Key)
		return object{"path": hexesOf(path), "value": valueOf(value)}, err
	},
	"tree_difference": func(it item) (any, error) {
		found, err := TreeDifference(it.host(), cidIn(it.Before), cidIn(it.After))
		if err != nil {
			return nil, err
		}
		edit := editWith(&Edit{Add: found.Add, Drop: found.Drop}).(object)
		return object{"changes": changesOf(found.Changes), "add": edit["add"], "drop": edit["drop"]}, nil
	},
	"tree_list": func(it item) (any, error) {
		pairs, err := TreeList(it.host(), cidIn(it.Root), it.Start, it.Most)
		return pairsOf(pairs), err
	},
	"tree_prove_change": func(it item) (any, error) {
		proof, err := TreeProveChange(it.host(), cidIn(it.Root), it.wanted())
		if err != nil {
			return nil, err
		}
		must(VerifyChange(cidIn(it.Root), proof.After, proof.Nodes, proof.Changes))
		return object{"after": proof.After.String(), "changes": changesOf(proof.Changes), "shown": true}, nil
	},
	"tree_apply": func(it item) (any, error) {
		edit, err := TreeApply(it.host(), cidIn(it.Root), it.wanted())
		if err != nil {
			return nil, err
		}
		return editWith(edit), nil
	},
}

// Each step of a repository.
var steps = map[string]func(r *Repository, it item) (any, error){
	"apply": func(r *Repository, it item) (any, error) {
		applied, err := r.Apply(it.stamp(), it.writes())
		if err != nil {
			return nil, err
		}
		return object{"root": applied.Root.String(), "previous": applied.Previous.String(), "commit": applied.Commit.String()}, nil
	},
	"preview": func(r *Repository, it item) (any, error) {
		found, err := r.Preview(it.stamp(), it.writes())
		if err != nil {
			return nil, err
		}
		return object{"previous": found.Previous.String(), "root": found.Root.String(), "unsigned": hex.EncodeToString(found.Unsigned), "changes": changesOf(found.Changes)}, nil
	},
	"apply_signed": func(r *Repository, it item) (any, error) {
		found, err := r.ApplySigned(it.stamp(), it.writes(), Told{cidIn(it.Previous), data(it.Sig), it.Seq, it.Time, it.Since})
		return packed(found), err
	},
	"rev": func(r *Repository, it item) (any, error) {
		rev, err := r.Rev()
		return textOr(rev), err
	},
	"close": func(r *Repository, it item) (any, error) { return nil, r.Close() },
	"root": func(r *Repository, it item) (any, error) {
		root, err := r.Root()
		return valueOf(root), err
	},
	"commit": func(r *Repository, it item) (any, error) {
		commit, err := r.Commit()
		return valueOf(commit), err
	},
	"number": func(r *Repository, it item) (any, error) {
		number, err := r.Number()
		return float64(number), err
	},
	"get": func(r *Repository, it item) (any, error) {
		found, err := r.Get(it.Key)
		if found == nil {
			return nil, err
		}
		return hex.EncodeToString(found), err
	},
	"list": func(r *Repository, it item) (any, error) {
		pairs, err := r.List(it.Start, it.Most)
		return pairsOf(pairs), err
	},
	"pairs": func(r *Repository, it item) (any, error) {
		var pairs []Pair
		err := r.Pairs(it.Start, func(pair Pair) error {
			pairs = append(pairs, pair)
			return nil
		})
		return pairsOf(pairs), err
	},
	"car": func(r *Repository, it item) (any, error) {
		found, err := r.Car()
		if err != nil {
			return nil, err
		}
		return hex.EncodeToString(found), isRead(r, found)
	},
	"car_length": func(r *Repository, it item) (any, error) {
		length, err := r.CarLength()
		return float64(length), err
	},
	"prove": func(r *Repository, it item) (any, error) {
		nodes, err := r.Prove(it.Key)
		return hexesOf(nodes), err
	},
	"prove_change": func(r *Repository, it item) (any, error) {
		proof, err := r.ProveChange(it.wanted())
		if err != nil {
			return nil, err
		}
		return object{"after": proof.After.String(), "changes": changesOf(proof.Changes), "nodes": hexesOf(proof.Nodes)}, nil
	},
	"prove_inversion": func(r *Repository, it item) (any, error) {
		nodes, err := r.ProveInversion(it.told())
		return hexesOf(nodes), err
	},
}

// That a repository's file is this one, in whichever way it is read.
func isRead(r *Repository, file []byte) error {
	var written bytes.Buffer
	count, err := r.WriteCar(&written)
	must(err)
	read, err := io.ReadAll(r.CarReader())
	must(err)
	var parts []byte
	for {
		var part [100]byte
		count, err := r.CarPart(uint64(len(parts)), part[:])
		must(err)
		if count == 0 {
			break
		}
		parts = append(parts, part[:count]...)
	}
	if count != int64(len(file)) || !bytes.Equal(written.Bytes(), file) || !bytes.Equal(read, file) || !bytes.Equal(parts, file) {
		return errors.New("the file is another one in parts")
	}
	return nil
}

// That a call answers what the case says, or is refused as it says.
func see(t *testing.T, of table, it item, answer any, err error) {
	t.Helper()
	var fault *Fault
	switch {
	case err == nil && it.Fault == "":
		if !reflect.DeepEqual(answer, it.Answer) {
			t.Errorf("%s: %v and not %v", it.Call, answer, it.Answer)
		}
	case !errors.As(err, &fault) || fault.Name != it.Fault || fault.Number != of.Faults[fault.Name]:
		t.Errorf("%s: %v and not %s", it.Call, err, it.Fault)
	case it.Place != nil && fault.Place != *it.Place:
		t.Errorf("%s: %s at place %d and not %d", it.Call, fault.Name, fault.Place, *it.Place)
	case it.Path != nil && fault.Path != *it.Path:
		t.Errorf("%s: %s at %s and not %s", it.Call, fault.Name, fault.Path, *it.Path)
	case it.Cid != nil && fault.Cid.String() != *it.Cid:
		t.Errorf("%s: %s of %s and not %s", it.Call, fault.Name, fault.Cid, *it.Cid)
	}
}

func TestCalls(t *testing.T) {
	of, seen := tableOf(t), map[string]bool{}
	for _, it := range of.Calls {
		call := calls[it.Call]
		if call == nil {
			t.Fatalf("no call %s", it.Call)
		}
		seen[it.Call] = true
		answer, err := call(it)
		see(t, of, it, answer, err)
	}
	if len(seen) != len(calls) {
		t.Errorf("%d of %d calls were seen", len(seen), len(calls))
	}
}

func TestRepositories(t *testing.T) {
	of, seen := tableOf(t), map[string]bool{}
	for _, hosted := range of.Repositories {
		repository, err := Open(hosted.Limit)
		if hosted.Fault != "" {
			see(t, of, item{Call: hosted.Name, Fault: hosted.Fault}, nil, err)
			continue
		}
		must(err)
		for _, it := range hosted.Steps {
			step := steps[it.Call]
			if step == nil {
				t.Fatalf("no step %s", it.Call)
			}
			seen[it.Call] = true
			answer, err := step(repository, it)
			see(t, of, it, answer, err)
		}
		must(repository.Close())
	}
	if len(seen) != len(steps) {
		t.Errorf("%d of %d steps were seen", len(seen), len(steps))
	}
}

func TestFaults(t *testing.T) {
	of, named := tableOf(t), map[string]int{}
	for _, faults := range []faults{ofAll, ofCids, ofTrees} {
		for number, fault := range faults {
			if int(number) != fault.Number {
				t.Errorf("%s stands under %d", fault.Name, number)
			}
			named[fault.Name] = fault.Number
		}
	}
	if !reflect.DeepEqual(named, of.Faults) {
		t.Errorf("%v and not %v", named, of.Faults)
	}
}
