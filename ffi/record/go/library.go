// SPDX-License-Identifier: 0BSD

//go:build cgo

package snaprecord

/*
#cgo LDFLAGS: -ldl
#include <dlfcn.h>
#include <stdint.h>
#include <stdlib.h>

typedef uint32_t check(const uint8_t *, size_t, uint32_t, uint8_t *, size_t, size_t *);

static check *load(const char *place) {
	void *library = dlopen(place, RTLD_NOW);
	uint32_t (*version)(void) = library ? (uint32_t (*)(void))dlsym(library, "snapjudge_version") : NULL;
	return version && version() == 1 ? (check *)dlsym(library, "snapjudge_check_limit") : NULL;
}

static uint32_t judge(check *call, const char *text, size_t length, uint32_t events) {
	size_t room = 2 * length + 256, written = 0;
	uint8_t *report = calloc(room, 1);
	uint32_t status = report ? call((const uint8_t *)text, length, events, report, room, &written) : 4;
	free(report);
	return status;
}
*/
import "C"

import "unsafe"

// The judge as a library, found while the program runs.
type library struct{ call *C.check }

func load(place string) library {
	name := C.CString(place)
	defer C.free(unsafe.Pointer(name))
	return library{C.load(name)}
}

func (library library) isThere() bool { return library.call != nil }

func (library library) check(text string, events uint64) int {
	copied := C.CString(text)
	defer C.free(unsafe.Pointer(copied))
	return int(C.judge(library.call, copied, C.size_t(len(text)), C.uint32_t(events)))
}
