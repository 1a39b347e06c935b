// A small checksum database, by the server of golang.org/x/mod, over a file of go.sum lines. It prints its port and the
// key that verifies what it says.
package main

import (
	"crypto/rand"
	"fmt"
	"net"
	"net/http"
	"os"
	"strings"

	"golang.org/x/mod/sumdb"
	"golang.org/x/mod/sumdb/note"
)

// lines returns the lines of a version.
func lines(path, version string) ([]byte, error) {
	all, err := os.ReadFile(os.Args[1])
	if err != nil {
		return nil, err
	}
	var found strings.Builder
	for _, line := range strings.SplitAfter(string(all), "\n") {
		if strings.HasPrefix(line, path+" "+version+" ") || strings.HasPrefix(line, path+" "+version+"/go.mod ") {
			found.WriteString(line)
		}
	}
	if found.Len() == 0 {
		return nil, os.ErrNotExist
	}
	return []byte(found.String()), nil
}

func main() {
	signs, verifies, err := note.GenerateKey(rand.Reader, "sum.golang.org")
	if err != nil {
		panic(err)
	}
	listener, err := net.Listen("tcp", "127.0.0.1:0")
	if err != nil {
		panic(err)
	}
	fmt.Println(listener.Addr().(*net.TCPAddr).Port, verifies)
	panic(http.Serve(listener, sumdb.NewServer(sumdb.NewTestServer(signs, lines))))
}
