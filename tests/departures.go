// Tells of each row on standard input what golang.org/x/mod says of it, for departures.py beside this file.
// A row is tab-separated: path P, version P V, or gomod TEXT, where \n in TEXT stands for the end of a line, and <C2 A0> for these bytes.
package main

import (
	"bufio"
	"encoding/hex"
	"fmt"
	"os"
	"regexp"
	"strings"

	"golang.org/x/mod/modfile"
	"golang.org/x/mod/module"
)

func word(err error) string {
	if err == nil {
		return "accepted"
	}
	return "refused"
}

var named = regexp.MustCompile("<[0-9A-F ]+>")

// unwritten returns the bytes of a go.mod, as a row writes it.
func unwritten(text string) []byte {
	text = strings.ReplaceAll(text, `\n`, "\n")
	return []byte(named.ReplaceAllStringFunc(text, func(them string) string {
		bytes, err := hex.DecodeString(strings.ReplaceAll(strings.Trim(them, "<>"), " ", ""))
		if err != nil {
			panic(err)
		}
		return string(bytes)
	}))
}

func main() {
	in := bufio.NewScanner(os.Stdin)
	in.Buffer(make([]byte, 1<<20), 1<<20)
	for in.Scan() {
		row := strings.Split(in.Text(), "\t")
		switch row[0] {
		case "path":
			fmt.Println(word(module.CheckPath(row[1])))
		case "version":
			said := word(module.Check(row[1], row[2]))
			if module.IsPseudoVersion(row[2]) {
				said += ", a pseudo-version"
			}
			fmt.Println(said)
		case "gomod":
			text := unwritten(row[1])
			_, own := modfile.Parse("go.mod", text, nil)
			_, other := modfile.ParseLax("go.mod", text, nil)
			fmt.Printf("%s; %s\n", word(own), word(other))
		}
	}
}
