package snapjudge

/*
#cgo CFLAGS: -I${SRCDIR}/../c
#cgo LDFLAGS: -L${SRCDIR}/../build -l:libsnapjudge.a
#include "snapjudge.h"
*/
import "C"

type command int

const (
	report command = iota
	explain
	object
	shrink
	draw
	stats
	explainFaults
)

// What is asked of a text: by which command, with which option, and the JSON object with which name. A picture is of a part, and an
// explanation by a number of faults.
type question struct {
	command command
	option  uint32
	name    []byte
	part    Part
	faults  uint32
}

// The first byte of a text, or another byte if it has none: the library takes no null pointer.
func first(text []byte) *C.uint8_t {
	if len(text) == 0 {
		return new(C.uint8_t)
	}
	return (*C.uint8_t)(&text[0])
}

// The number by which the library knows the limit. It is 0, which is no limit, if the events alone would ask for many writers.
func (o options) limit() uint32 {
	switch {
	case o.events >= C.SNAPJUDGE_MANY_WRITERS:
		return 0
	case o.manyWriters:
		return C.SNAPJUDGE_MANY_WRITERS + o.events
	default:
		return o.events
	}
}

// The status of the library, and how many bytes its answer has. From 0 to 3 the answer is at the front of the room.
func (asked question) into(room, text []byte, limit uint32) (C.uint32_t, int) {
	var written C.size_t
	in, length, most := first(text), C.size_t(len(text)), C.uint32_t(limit)
	option, out, size := C.uint32_t(asked.option), first(room), C.size_t(len(room))
	var status C.uint32_t
	switch asked.command {
	case explain:
		status = C.snapjudge_explain(in, length, most, option, out, size, &written)
	case explainFaults:
		status = C.snapjudge_explain_faults(in, length, most, option, C.uint32_t(asked.faults), out, size, &written)
	case object:
		status = C.snapjudge_json(in, length, most, first(asked.name), C.size_t(len(asked.name)), out, size, &written)
	case shrink:
		status = C.snapjudge_shrink(in, length, most, option, out, size, &written)
	case draw:
		calls, from, around := C.uint32_t(asked.part.Calls), C.uint32_t(asked.part.From), C.uint32_t(asked.part.Around)
		status = C.snapjudge_draw_calls(in, length, most, option, calls, from, around, out, size, &written)
	case stats:
		status = C.snapjudge_stats(in, length, most, option, out, size, &written)
	default:
		status = C.snapjudge_check_limit(in, length, most, out, size, &written)
	}
	return status, int(written)
}

// The answer to a question. It is asked again if the first room is too small.
func ask(asked question, text []byte, chosen options) (Answer, error) {
	if C.snapjudge_version() != C.SNAPJUDGE_VERSION {
		return Answer{}, ErrVersion
	}
	for size := len(text) + len(text)/4 + 4096; ; {
		room := make([]byte, size)
		status, length := asked.into(room, text, chosen.limit())
		switch status {
		case C.SNAPJUDGE_ATOMIC, C.SNAPJUDGE_REGULAR, C.SNAPJUDGE_IRREGULAR, C.SNAPJUDGE_REFUSED:
			return Answer{Status(status), string(room[:length])}, nil
		case C.SNAPJUDGE_NO_ROOM:
			size = length
		case C.SNAPJUDGE_NO_LIMIT:
			return Answer{}, &LimitError{chosen.events}
		case C.SNAPJUDGE_NO_OPTION:
			return Answer{}, ErrOption
		default:
			return Answer{}, ErrMemory
		}
	}
}
