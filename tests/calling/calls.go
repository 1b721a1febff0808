// Calls the library by cgo. The words are a file of frames, and two of what the program makes of them.
package main

// #cgo pkg-config: derguard
// #include <derguard.h>
// #include <stdlib.h>
import "C"

import (
	"bytes"
	"fmt"
	"os"
	"sync"
	"unsafe"
)

const names = "\x05north\x05south\x05order"

var (
	good  = []byte("\x30\x0b\x80\x01\x05\x81\x01\x01\xa4\x03\x02\x01\x07")
	great = []byte("\x30\x0e\x80\x01\x05\x81\x01\x00\x82\x01\x0b\xa4\x03\x02\x01\x07")
)

func check(holds bool, what string) {
	if !holds {
		fmt.Fprintln(os.Stderr, "calls.go:", what)
		os.Exit(1)
	}
}

func file(path string) []byte {
	octets, err := os.ReadFile(path)
	check(err == nil, path)
	return octets
}

// at is what a call takes of octets: a pointer, null where there are none, and their number.
func at(octets []byte) (*C.uint8_t, C.size_t) {
	if len(octets) == 0 {
		return nil, 0
	}
	return (*C.uint8_t)(unsafe.Pointer(&octets[0])), C.size_t(len(octets))
}

// A Policy has a handle in Go's memory, which the calls write a pointer of C into.
type Policy struct{ handle C.derguard_policy }

// Load loads the policy that a text says over one module, or says the status and the fault.
func (p *Policy) Load(module, text []byte) (int, string) {
	// an array that C reads holds no pointers of Go
	copied := C.CBytes(module)
	defer C.free(copied)
	modules := [1]C.derguard_octets{{(*C.uint8_t)(copied), C.size_t(len(module))}}
	fault := make([]byte, 200)
	var needed C.size_t
	octets, length := at(text)
	out, room := at(fault)
	status := C.derguard_load(&p.handle, &modules[0], 1, octets, length, out, room, &needed)
	return int(status), string(fault[:needed])
}

func (p *Policy) Passes(names string, message []byte) bool {
	n, count := at([]byte(names))
	m, length := at(message)
	return bool(C.derguard_passes(&p.handle, n, count, m, length))
}

func (p *Policy) Verdict(names string, message []byte) (int, string) {
	text := make([]byte, 100)
	var needed C.size_t
	n, count := at([]byte(names))
	m, length := at(message)
	out, room := at(text)
	status := C.derguard_verdict(&p.handle, n, count, m, length, out, room, &needed)
	return int(status), string(text[:needed])
}

// Share is one more handle of the same policy.
func (p *Policy) Share() *Policy {
	other := &Policy{}
	check(C.derguard_share(&p.handle, &other.handle) == C.DERGUARD_OK, "share")
	return other
}

func (p *Policy) Free() { C.derguard_free(&p.handle) }

// judge asks from whichever threads the goroutine runs on.
func judge(policy *Policy) {
	defer policy.Free()
	for i := 0; i < 20000; i++ {
		check(policy.Passes(names, good) && !policy.Passes(names, great), "judge")
	}
}

// run feeds a stream in pieces, and answers what came out and what was reported.
func run(policy *Policy, stream []byte, step int) ([]byte, []byte) {
	var link C.derguard_link
	check(C.derguard_link_open(&link) == C.DERGUARD_OK, "open")
	defer C.derguard_link_free(&link)
	var sent []byte
	room := make([]byte, len(stream)+1048579)
	var count C.size_t
	for begin := 0; begin < len(stream); begin += step {
		end := begin + step
		if end > len(stream) {
			end = len(stream)
		}
		piece, length := at(stream[begin:end])
		out, most := at(room)
		status := C.derguard_link_feed(&policy.handle, &link, piece, length, out, most, &count)
		check(status == C.DERGUARD_OK, "feed")
		sent = append(sent, room[:count]...)
	}
	check(C.derguard_link_end(&link) == C.DERGUARD_OK, "end")
	out, most := at(room)
	check(C.derguard_link_reports(&link, out, most, &count) == C.DERGUARD_OK, "reports")
	return sent, room[:count]
}

func main() {
	module, text := file("examples/orders.asn1"), file("examples/orders.toml")
	stream, out, reports := file(os.Args[1]), file(os.Args[2]), file(os.Args[3])
	var policy Policy
	check(!policy.Passes(names, good), "a policy that isn't loaded")
	status, fault := policy.Load(module, []byte("modules = ["))
	check(status == C.DERGUARD_REFUSED && fault[0] == 'Q', fault)
	status, fault = policy.Load(module, text)
	check(status == C.DERGUARD_OK && fault == "", fault)
	check(policy.Passes(names, good) && !policy.Passes(names, great), "passes")
	check(!policy.Passes(names+"x", good) && !policy.Passes(names, nil), "names, no message")
	status, said := policy.Verdict(names, great)
	check(status == C.DERGUARD_OK && said == "not-allowed small Orders:8:45 $.qty", said)

	var group sync.WaitGroup
	for i := 0; i < 4; i++ {
		group.Add(1)
		go func(mine *Policy) {
			defer group.Done()
			judge(mine)
		}(policy.Share())
	}
	group.Wait()
	for _, step := range []int{1, 7, 100, len(stream)} {
		sent, told := run(&policy, stream, step)
		check(bytes.Equal(sent, out) && bytes.Equal(told, reports), "a link")
	}
	policy.Free()
	check(!policy.Passes(names, good), "a policy that is freed")
}
