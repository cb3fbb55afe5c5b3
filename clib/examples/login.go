// Logs a user in, as login.c does: reads the client's two messages, a line each, and writes the server's two.
//
// Usage: login MECHANISM SALT NONCE [ACT_AS ..]
// Built by: CGO_CFLAGS="-I$PWD/clib/out" CGO_LDFLAGS="-L$PWD/clib/out -Wl,-rpath,$PWD/clib/out" go build -o login clib/examples/login.go
package main

// #cgo LDFLAGS: -lscramotp
// #include <stdlib.h>
// #include "scramotp.h"
import "C"

import (
	"bufio"
	"encoding/hex"
	"fmt"
	"os"
	"strings"
	"unsafe"
)

// 32 random bytes of the server, which are the same in each login.
var decoyKey = [32]C.uint8_t{1, 2, 3}

// at gives the address of some bytes, or NULL if there are none.
func at(text []byte) unsafe.Pointer {
	if len(text) == 0 {
		return nil
	}
	return unsafe.Pointer(&text[0])
}

// done ends the program unless a call has done what it says.
func done(number C.uint32_t) {
	if number != C.SCRAMOTP_OK {
		fmt.Fprintf(os.Stderr, "refused: %d\n", number)
		os.Exit(1)
	}
}

func main() {
	mechanism := C.uint32_t(C.SCRAMOTP_SHA_256)
	if os.Args[1] == "SCRAM-SHA-1" {
		mechanism = C.SCRAMOTP_SHA_1
	}
	salt, _ := hex.DecodeString(os.Args[2])
	nonce, password := []byte(os.Args[3]), []byte("pencil")
	input := bufio.NewScanner(os.Stdin)

	input.Scan()
	first := []byte(input.Text())
	var names C.scramotp_names
	done(C.scramotp_read_names(at(first), C.size_t(len(first)), &names))
	name, other := C.GoString(&names.name[0]), C.GoString(&names.act_as[0])
	var entry C.scramotp_entry
	if name == "user" {
		done(C.scramotp_keys(mechanism, 4096, at(salt), C.size_t(len(salt)), at(password), C.size_t(len(password)), &entry))
	} else {
		done(C.scramotp_decoy(&decoyKey[0], mechanism, 4096, at([]byte(name)), C.size_t(len(name)), &entry))
	}
	out := make([]byte, C.SCRAMOTP_FIRST_ROOM)
	var size C.size_t
	done(C.scramotp_server_first(&entry, at(first), C.size_t(len(first)), at(nonce), C.size_t(len(nonce)), at(out), C.size_t(len(out)), &size))
	challenge := []byte(string(out[:size]))
	fmt.Println(string(challenge))

	input.Scan()
	final := []byte(input.Text())
	// C may not be handed Go's memory that points to more of it, so the names are copied to C's.
	others := strings.Join(os.Args[4:], "")
	text := C.CString(others)
	defer C.free(unsafe.Pointer(text))
	list := (*[16]C.scramotp_bytes)(C.calloc(16, C.size_t(unsafe.Sizeof(C.scramotp_bytes{}))))
	defer C.free(unsafe.Pointer(list))
	from := 0
	for i, word := range os.Args[4:] {
		list[i] = C.scramotp_bytes{at: unsafe.Add(unsafe.Pointer(text), from), len: C.size_t(len(word))}
		from += len(word)
	}
	number := C.scramotp_server_final(&entry, &list[0], C.size_t(len(os.Args)-4), at(first), C.size_t(len(first)), at(challenge),
		C.size_t(len(challenge)), at(final), C.size_t(len(final)), at(out), C.size_t(len(out)), &size)
	if number == C.SCRAMOTP_OK || (C.SCRAMOTP_INVALID_ENCODING <= number && number <= C.SCRAMOTP_NOT_AUTHORISED) {
		fmt.Println(string(out[:size]))
	}
	done(number)
	if other == "" {
		other = name
	}
	fmt.Fprintf(os.Stderr, "%s is logged in as %s\n", name, other)
}
