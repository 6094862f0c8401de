// Calls of klauspost's reedsolomon in Go, on one core, for bench/erasure.c.
package main

// #include <stdint.h>
// #include <stddef.h>
import "C"

import (
	_ "klauspost/plain"
	"unsafe"

	"github.com/klauspost/reedsolomon"
)

var (
	code   reedsolomon.Encoder
	shards [][]byte
	all    [][]byte
)

//export klauspost_code
func klauspost_code(data, parity C.int, bytes *C.uint8_t, size C.size_t) C.int {
	made, err := reedsolomon.New(int(data), int(parity), reedsolomon.WithMaxGoroutines(1))
	if err != nil {
		return 0
	}
	code = made
	slice := unsafe.Slice((*byte)(bytes), int(data+parity)*int(size))
	all, shards = nil, nil
	for i := 0; i < int(data+parity); i++ {
		shard := slice[i*int(size) : (i+1)*int(size) : (i+1)*int(size)]
		all, shards = append(all, shard), append(shards, shard)
	}
	return 1
}

//export klauspost_encode
func klauspost_encode() C.int {
	if code.Encode(all) != nil {
		return 0
	}
	return 1
}

//export klauspost_verify
func klauspost_verify() C.int {
	if whole, err := code.Verify(all); err != nil || !whole {
		return 0
	}
	return 1
}

//export klauspost_reconstruct
func klauspost_reconstruct(lost C.int) C.int {
	for i := range all {
		shards[i] = all[i]
		if i < int(lost) {
			shards[i] = all[i][:0]
		}
	}
	if code.Reconstruct(shards) != nil {
		return 0
	}
	return 1
}

func main() {}
