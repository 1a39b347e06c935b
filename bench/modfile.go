// Reads the go.mod on standard input by golang.org/x/mod/modfile, as often as its argument says, for modfile.py beside this file,
// and prints how many requirements it read in all.
package main

import (
	"fmt"
	"io"
	"os"
	"strconv"

	"golang.org/x/mod/modfile"
)

func main() {
	rounds, err := strconv.Atoi(os.Args[1])
	if err != nil {
		panic(err)
	}
	text, err := io.ReadAll(os.Stdin)
	if err != nil {
		panic(err)
	}
	read := 0
	for i := 0; i < rounds; i++ {
		file, err := modfile.Parse("go.mod", text, nil)
		if err != nil {
			panic(err)
		}
		read += len(file.Require)
	}
	fmt.Println(read)
}
