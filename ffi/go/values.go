package snapjudge

import (
	"fmt"
	"strconv"
	"strings"
)

// Status is what a text is. The numbers are those with which the program ends.
type Status int

const (
	Atomic    Status = iota // an order of the calls explains every view
	Regular                 // each view alone is right, and no order explains all
	Irregular               // a view is too old or too early, or shows what nobody wrote
	Refused                 // the text is not a history
)

func (s Status) String() string {
	if s < Atomic || s > Refused {
		return fmt.Sprintf("status %d", int(s))
	}
	return [...]string{"atomic", "regular", "irregular", "refused"}[s]
}

// Form is a form of a picture. The numbers are those of the library.
type Form uint32

const (
	Page      Form = iota // a page for a browser, light or dark as the reader's system is
	SVG                   // SVG alone, with dark ink on a light ground
	Lines                 // characters
	LightPage             // a page with dark ink on a light ground
	DarkPage              // a page with light ink on a dark ground
	DarkSVG               // SVG alone, with light ink on a dark ground
)

// Op is what a call does.
type Op string

const (
	Update Op = "update"
	View   Op = "view"
)

// Entry says that an update of a component has this number and value. The first update of a component has number 1.
type Entry struct {
	Component uint32 `json:"component"`
	Number    uint32 `json:"number"`
	Value     uint32 `json:"value"`
}

// Call is a call that a fault concerns. Calls are counted from 1, and so are records, of which the header is the first.
type Call struct {
	Call    uint32  `json:"call"`
	Process uint32  `json:"process"`
	Op      Op      `json:"op"`
	Begin   uint32  `json:"begin"`   // the record of its begin
	End     *uint32 `json:"end"`     // the record of its end, nil for a pending call
	Entries []Entry `json:"entries"` // what a view shows, or the one entry that an update writes
}

// Step is a call in the printed order.
type Step struct {
	Call    uint32
	Process uint32
	Op      Op
	Entries []Entry
}

// IntegrityFault says that a view shows an entry that no update wrote.
type IntegrityFault struct {
	Count  uint64 `json:"count"` // how many faults of this kind there are; this is the first
	View   Call   `json:"view"`
	Entry  Entry  `json:"entry"`
	Update *Call  `json:"update"` // the update of that number, nil if there is none
}

// ProximityFault says that a view shows a number that is too old or too early.
type ProximityFault struct {
	Count     uint64 `json:"count"`
	View      Call   `json:"view"`
	Component uint32 `json:"component"`
	Number    uint32 `json:"number"` // what the view shows, 0 for nothing
	Side      string `json:"side"`   // "old" or "early"
	Update    *Call  `json:"update"` // the update that an old view misses, or that an early one shows; nil if there is none
}

// Difference is what the two views of a read fault show of a component, 0 for nothing.
type Difference struct {
	Component   uint32 `json:"component"`
	ViewNumber  uint32 `json:"view_number"`
	OtherNumber uint32 `json:"other_number"`
	Update      *Call  `json:"update"` // the update of the greater number; nil if the history has none
}

// ReadFault says that a view shows more of a component than another, which shows more elsewhere or begins after it.
type ReadFault struct {
	Count     uint64       `json:"count"`
	View      Call         `json:"view"`
	Other     Call         `json:"other"`
	Component uint32       `json:"component"`
	Differs   []Difference `json:"differs"` // the component, and the one of which the other view shows more
}

// NamedUpdate is an update by its component and number.
type NamedUpdate struct {
	Component uint32 `json:"component"`
	Number    uint32 `json:"number"`
	Update    *Call  `json:"update"` // nil if the history has none
}

// WriteFault says that a view shows an update, and misses one that preceded it.
type WriteFault struct {
	Count  uint64      `json:"count"`
	View   Call        `json:"view"`
	Misses NamedUpdate `json:"misses"`
	Shows  NamedUpdate `json:"shows"`
}

// Judged is the verdict on a history.
type Judged struct {
	Status    Status          `json:"status"`
	Events    uint64          `json:"events"`
	Calls     uint64          `json:"calls"`
	Pending   uint64          `json:"pending"`
	Views     uint64          `json:"views"` // completed views
	Regular   bool            `json:"regular"`
	Monotone  bool            `json:"monotone"`
	Atomic    bool            `json:"atomic"`
	Integrity *IntegrityFault `json:"integrity"` // the first fault of its kind, nil if there is none; so are the next three
	Proximity *ProximityFault `json:"proximity"`
	Read      *ReadFault      `json:"read"`
	Write     *WriteFault     `json:"write"`
	Order     []Step          `json:"-"` // an order that explains an atomic history
}

// ComponentStats is what a run has shown of a component: the process of its first update, its updates, and the views that list it.
type ComponentStats struct {
	Component uint32 `json:"component"`
	Writer    uint32 `json:"writer"`
	Updates   uint32 `json:"updates"`
	Views     uint32 `json:"views"`
}

// RunStats is what a run has shown. It is not a verdict. Calls overlap if neither precedes the other.
type RunStats struct {
	Events           uint64           `json:"events"`
	Calls            uint64           `json:"calls"`
	Pending          uint64           `json:"pending"`
	Views            uint64           `json:"views"` // completed views
	Updates          uint64           `json:"updates"`
	Processes        uint64           `json:"processes"`
	Components       uint64           `json:"components"`
	OverlapUpdate    uint64           `json:"overlap_update"` // views that overlap an update
	OverlapView      uint64           `json:"overlap_view"`
	OverlapNothing   uint64           `json:"overlap_nothing"`
	Unshown          uint64           `json:"unshown"`   // updates that no view lists
	MostOpen         uint64           `json:"most_open"` // the most calls that are open at one time
	Longest          uint64           `json:"longest"`   // the events from the begin to the end of the longest call, 0 if none has an end
	ShowsConcurrency bool             `json:"shows_concurrency"`
	ByComponent      []ComponentStats `json:"by_component"` // those that have an update, in rising order
}

// The order of an atomic history, which only the report has: below a line `order 2` lines such as `2 p1 view 0:1:7`.
func orderOf(report string) []Step {
	_, below, _ := strings.Cut(report, "\norder ")
	lines := strings.Split(below, "\n")
	order := make([]Step, 0, len(lines))
	for _, line := range lines[1 : len(lines)-1] {
		words := strings.Split(line, " ")
		entries := make([]Entry, len(words)-3)
		for k, word := range words[3:] {
			parts := strings.Split(word, ":")
			entries[k] = Entry{number(parts[0]), number(parts[1]), number(parts[2])}
		}
		order = append(order, Step{number(words[0]), number(words[1][1:]), Op(words[2]), entries})
	}
	return order
}

// The number that the library has written with these digits.
func number(digits string) uint32 {
	found, _ := strconv.ParseUint(digits, 10, 32)
	return uint32(found)
}
