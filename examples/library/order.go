// A shop that shows its customers that their orders are in the log: it appends an order, asks for its inclusion proof,
// checks the proof, and hands it out.
//
// usage: order SOCKET ORDER PROOF
//
// PROOF is written, and a line `INDEX COUNT:ROOT` printed: with both the customer runs `audit check PROOF COUNT:ROOT`.
package main

/*
#cgo LDFLAGS: -lauditstore
#include <audit_store.h>
*/
import "C"

import (
	"encoding/binary"
	"fmt"
	"log"
	"net"
	"os"
	"unsafe"
)

// The kind of an event that is an order.
const orderKind = 7

func bytes(slice []byte) (*C.uint8_t, C.size_t) {
	return (*C.uint8_t)(unsafe.Pointer(&slice[0])), C.size_t(len(slice))
}

// ask sends a request, and returns the fields of its reply and its frame.
func ask(stream net.Conn, request []byte, kind C.uint32_t) (C.struct_audit_store_reply, []byte) {
	if len(request) == 0 {
		log.Fatal("an order that is too long")
	}
	if _, err := stream.Write(request); err != nil {
		log.Fatal(err)
	}
	came := make([]byte, C.AUDIT_STORE_REPLY_MAX)
	var reply C.struct_audit_store_reply
	for held := 0; ; {
		place, _ := bytes(came)
		switch C.audit_store_read_reply(place, C.size_t(held), &reply) {
		case C.AUDIT_STORE_OK:
			if reply.kind != kind {
				log.Fatalf("refused: %d", reply.code)
			}
			return reply, came[:reply.size]
		case C.AUDIT_STORE_MALFORMED:
			log.Fatal("no reply")
		}
		if held == len(came) {
			log.Fatal("a frame that is too long for a reply")
		}
		taken, err := stream.Read(came[held:])
		if err != nil {
			log.Fatal(err)
		}
		held += taken
	}
}

func main() {
	if len(os.Args) != 4 || len(os.Args[2]) == 0 {
		log.Fatal("usage: order SOCKET ORDER PROOF")
	}
	stream, err := net.Dial("unix", os.Args[1])
	if err != nil {
		log.Fatal(err)
	}
	defer stream.Close()
	buffer := make([]byte, C.AUDIT_STORE_REQUEST_MAX)
	frame, room := bytes(buffer)

	order, length := bytes([]byte(os.Args[2]))
	size := C.audit_store_write_append(1, orderKind, order, length, frame, room)
	done, _ := ask(stream, buffer[:size], C.AUDIT_STORE_ACKNOWLEDGEMENT)

	size = C.audit_store_write_inclusion(2, done.index, done.count, frame, room)
	_, reply := ask(stream, buffer[:size], C.AUDIT_STORE_INCLUSION)
	proof := []byte{1}
	proof = binary.BigEndian.AppendUint64(proof, uint64(done.index))
	proof = binary.BigEndian.AppendUint64(proof, uint64(done.count))
	proof = append(proof, reply[7:]...)

	commitment := C.struct_audit_store_commitment{count: done.count, root: done.root}
	place, long := bytes(proof)
	if C.audit_store_check_inclusion(place, long, &commitment) != C.AUDIT_STORE_OK {
		log.Fatal("a proof that isn't accepted")
	}
	if err := os.WriteFile(os.Args[3], proof, 0o644); err != nil {
		log.Fatal(err)
	}
	root := C.GoBytes(unsafe.Pointer(&done.root[0]), 32)
	fmt.Printf("%d %d:%x\n", uint64(done.index), uint64(done.count), root)
}
