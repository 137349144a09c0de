package tizulgech

// #include <tizulgech.h>
import "C"

// RecordJSON is the one JSON text of a record, by the AT Protocol's data model: its keys in the order of DAG-CBOR, no spaces, links as
// {"$link": ..} and bytes as {"$bytes": ..}.
//
// A fault of DAG-CBOR says that the bytes are no value; ErrNoJSONForm, that it has a whole number outside of -(2^53 - 1) to 2^53 - 1, a link
// that isn't of version 1, or a key $link or $bytes.
func RecordJSON(record []byte) (string, error) {
	it := spanOf(record)
	found, err := filled(someRoom+2*len(record), ofAll, func(out span, size *C.size_t) C.uint8_t {
		return C.tizulgech_record_json(it.at, it.length, out.at, out.length, size)
	})
	return string(found), err
}

// JSONRecord is the record in DAG-CBOR that a JSON text is, of any layout. The first fault of a text that is none, ErrNotJSON to ErrJSONNotAMap,
// has the way to it.
func JSONRecord(text string) ([]byte, error) {
	it, room := spanOfText(text), someRoom+len(text)
	for {
		var size C.size_t
		found := make([]byte, room)
		out := spanOf(found)
		number := C.tizulgech_json_record(it.at, it.length, out.at, out.length, &size)
		// Of a record, and of a way, for which there is no room it is told how much they want.
		if int(size) > room {
			room = int(size)
			continue
		}
		found = found[:int(size)]
		if number == C.TIZULGECH_DONE {
			return found, nil
		}
		err := ofAll.fault(uint8(number))
		if fault, ok := err.(*Fault); ok && number >= C.TIZULGECH_NOT_JSON && number <= C.TIZULGECH_JSON_NOT_A_MAP {
			fault.Path = string(found)
		}
		return nil, err
	}
}

// LinkText is the text in which a link has a CID of version 1, whatever its codec and hash are, as that of a blob; ErrBad for what is no such CID.
func LinkText(cid []byte) (string, error) {
	it := spanOf(cid)
	found, err := filled(someRoom, ofAll, func(out span, size *C.size_t) C.uint8_t {
		return C.tizulgech_link_text(it.at, it.length, out.at, out.length, size)
	})
	return string(found), err
}

// LinkFromText is the CID of version 1 with this text, which has no other one; else ErrBad.
func LinkFromText(text string) ([]byte, error) {
	it := spanOfText(text)
	return filled(someRoom, ofAll, func(out span, size *C.size_t) C.uint8_t {
		return C.tizulgech_link_from_text(it.at, it.length, out.at, out.length, size)
	})
}
