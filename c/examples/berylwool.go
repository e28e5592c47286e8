// The C library from Go, by cgo: a blob is gathered by four goroutines out of two damaged copies of its encoding.
//
// `go run c/examples/berylwool.go` builds it with the C library that pkg-config finds.
//
// A goroutine calls on a thread of the system, whose stack is large enough. Go's memory is lent for the time of a call alone, and a handle
// in it has no pointer but the library's own, so cgo's rules on pointers are kept. What passes a Seat from one goroutine to another, a
// channel, a WaitGroup or a Mutex, orders memory as the library asks.
package main

// #cgo pkg-config: berylwool
// #include <berylwool.h>
import "C"

import (
	"bytes"
	"encoding/hex"
	"fmt"
	"log"
	"sync"
	"unsafe"
)

// Status is the number of a fault.
type Status C.bw_status

func (status Status) Error() string {
	return fmt.Sprintf("%d %s", uint32(status), C.GoString(C.bw_strerror(C.bw_status(status))))
}

// A Fault is a status with the place in a text that it speaks of.
type Fault struct {
	Status
	At uint64
}

func (fault Fault) Error() string { return fmt.Sprintf("%v at %d", fault.Status, fault.At) }

func told(status C.bw_status) error {
	if status == C.BW_OK {
		return nil
	}
	return Status(status)
}

func toldAt(status C.bw_status, at C.uint64_t) error {
	if status == C.BW_OK {
		return nil
	}
	return Fault{Status(status), uint64(at)}
}

// Hash is a blob's.
type Hash [C.BW_HASH_LEN]byte

func (hash *Hash) ptr() *C.uint8_t { return (*C.uint8_t)(unsafe.Pointer(hash)) }

var (
	plain   C.bw_mode
	nowhere [1]byte // what has no bytes has an address too, which isn't nil
)

func at(text []byte) *C.uint8_t {
	if len(text) == 0 {
		return (*C.uint8_t)(unsafe.Pointer(&nowhere))
	}
	return (*C.uint8_t)(unsafe.Pointer(&text[0]))
}

func size(text []byte) C.size_t { return C.size_t(len(text)) }

// HashOf is the hash of bytes.
func HashOf(blob []byte) (hash Hash) {
	must(told(C.bw_hash(&plain, at(blob), size(blob), 0, hash.ptr(), C.BW_HASH_LEN)))
	return hash
}

// Encode gives a blob's hash and its combined encoding.
func Encode(blob []byte) (root Hash, text []byte, err error) {
	var used C.size_t
	text = make([]byte, C.bw_slice_len(C.uint64_t(len(blob)), 0, C.UINT64_MAX))
	err = told(C.bw_encode(&plain, at(blob), size(blob), at(text), size(text), &used, root.ptr()))
	return root, text[:used], err
}

// CutSlice cuts a slice out of a combined encoding, of which nothing is checked.
func CutSlice(text []byte, start, count uint64) ([]byte, error) {
	var used C.size_t
	out := make([]byte, len(text))
	err := told(C.bw_cut_slice(at(text), size(text), C.uint64_t(start), C.uint64_t(count), at(out), size(out), &used))
	return out[:used], err
}

// CheckSlice says whether a text is the slice of `count` bytes from `start` on, under the root; a Fault is its first one.
func CheckSlice(root Hash, start, count uint64, text []byte) error {
	var place C.uint64_t
	slice := C.bw_slice{mode: plain, start: C.uint64_t(start), len: C.uint64_t(count)}
	for i, it := range root {
		slice.root[i] = C.uint8_t(it)
	}
	return toldAt(C.bw_check(&slice, at(text), size(text), &place), place)
}

// A Seat is one goroutine's at a time. Close it at the end.
type Seat struct {
	handle C.bw_seat
	store  *byte // the same for the seats of one store alone
}

// NewStore makes a store of so many chunks at most, and its first seat.
func NewStore(root Hash, capacity uint32) (*Seat, error) {
	seat := &Seat{store: new(byte)}
	return seat, told(C.bw_seat_new(&plain, root.ptr(), 0, C.uint32_t(capacity), &seat.handle))
}

// Split gives another seat of the store, which claims nothing.
func (seat *Seat) Split() (*Seat, error) {
	other := &Seat{store: seat.store}
	return other, told(C.bw_seat_split(&seat.handle, &other.handle))
}

// Join takes in another seat of the store with its claims: that one is closed. The check keeps what the library asks of its caller.
func (seat *Seat) Join(other *Seat) error {
	if seat == other || seat.store != other.store {
		return Status(C.BW_OTHER_STORE)
	}
	return told(C.bw_seat_join(&seat.handle, &other.handle))
}

// Gather is one worker's round over an encoding that nobody trusts. The report goes on from what it was.
func (seat *Seat) Gather(number, workers uint32, text []byte, report *C.bw_report) error {
	return told(C.bw_seat_gather(&seat.handle, C.uint32_t(number), C.uint32_t(workers), at(text), size(text), report))
}

// ServeSlice puts the text of a slice to the start of `out`, and answers how long it is.
func (seat *Seat) ServeSlice(start, count uint64, out []byte) (int, error) {
	var used C.size_t
	var lacking C.bw_node
	status := C.bw_seat_slice(&seat.handle, C.uint64_t(start), C.uint64_t(count), at(out), size(out), &used, &lacking)
	return int(used), told(status)
}

// Finish puts the blob to the start of `out`, once its hash is the root, and answers how long it is.
func (seat *Seat) Finish(out []byte) (int, error) {
	var used C.size_t
	err := told(C.bw_seat_finish(&seat.handle, at(out), size(out), &used))
	return int(used), err
}

// Close frees the seat, and the store with its last seat.
func (seat *Seat) Close() { C.bw_free(unsafe.Pointer(&seat.handle)) }

func must(err error) {
	if err != nil {
		log.Fatal(err)
	}
}

func want(holds bool, what string) {
	if !holds {
		log.Fatalf("this is not so: %s", what)
	}
}

func main() {
	nothing := HashOf(nil)
	want(hex.EncodeToString(nothing[:4]) == "af1349b9", "the hash of nothing")
	blob := make([]byte, 1_000_003)
	for i := range blob {
		blob[i] = byte(uint32(i) * 2_654_435_761 >> 24)
	}
	root, text, err := Encode(blob)
	must(err)
	want(root == HashOf(blob), "the root is the hash")
	piece, err := CutSlice(text, 5000, 10)
	must(err)
	must(CheckSlice(root, 5000, 10, piece))
	piece[len(piece)-1] ^= 1
	fault, is := CheckSlice(root, 5000, 10, piece).(Fault)
	want(is && fault.Status == C.BW_MISMATCH, "a damaged slice is refused")

	// Each is whole where the other is damaged.
	copies := [][]byte{append([]byte(nil), text...), append([]byte(nil), text...)}
	copies[0][10_000] ^= 1
	copies[1][900_000] ^= 1
	first, err := NewStore(root, 1024)
	must(err)
	defer first.Close()
	const workers = 4
	var group sync.WaitGroup
	seats := make([]*Seat, workers)
	for k := range seats {
		seats[k], err = first.Split()
		must(err)
		group.Add(1)
		go func(number uint32, seat *Seat) {
			defer group.Done()
			var report C.bw_report
			for i := range copies {
				must(seat.Gather(number, workers, copies[(int(number)+i)%len(copies)], &report))
			}
		}(uint32(k), seats[k])
	}
	group.Wait()
	for _, seat := range seats {
		must(first.Join(seat))
	}
	// A group that one worker held while the others passed it is left for a closing round.
	var report C.bw_report
	for _, copied := range copies {
		must(first.Gather(0, 1, copied, &report))
	}
	out := make([]byte, len(text))
	count, err := first.ServeSlice(0, ^uint64(0), out)
	must(err)
	want(bytes.Equal(out[:count], text), "the encoding is served")
	count, err = first.Finish(out)
	must(err)
	want(bytes.Equal(out[:count], blob), "the blob is gathered")
	other, err := NewStore(root, 1024)
	must(err)
	defer other.Close()
	want(first.Join(other) == Status(C.BW_OTHER_STORE), "seats of two stores aren't joined")
}
