// SPDX-License-Identifier: 0BSD

//go:build !cgo

package snaprecord

// Without cgo no library is called, and the program judges.
type library struct{}

func load(string) library { return library{} }

func (library) isThere() bool { return false }

func (library) check(string, uint64) int { return 4 }
