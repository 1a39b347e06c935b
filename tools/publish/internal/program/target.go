package program

import (
	"flag"
	"fmt"
	"io"
	"runtime"
	"strings"
	"time"

	"example.com/goshelf-publish/internal/server"
)

// A Target is the server that a command line names, and how to log in there.
type Target struct {
	To, KeyFile string
	Netrc       string // the file of the login, or ""
	Wait        time.Duration
	Both        bool // --netrc may be for another server
	hasNetrc    bool
	seconds     uint
}

// Options adds the options of a target.
func (t *Target) Options(set *flag.FlagSet) {
	set.StringVar(&t.To, "to", "", "")
	set.StringVar(&t.KeyFile, "key-file", "", "")
	set.BoolVar(&t.hasNetrc, "netrc", false, "")
	set.UintVar(&t.seconds, "wait", 60, "")
}

// Check refuses options that do not go together, and a URL that nobody can mean. A target may be left out.
func (t *Target) Check() error {
	t.To, t.Wait = strings.TrimSuffix(t.To, "/"), time.Duration(t.seconds)*time.Second
	if t.hasNetrc {
		t.Netrc = server.NetrcFile(runtime.GOOS)
	}
	hasLogin := t.KeyFile != "" || t.hasNetrc
	switch {
	case t.seconds == 0:
		return Bad("--wait takes a number of seconds")
	case t.To == "" && hasLogin:
		return Bad("--key-file and --netrc need --to")
	case t.To != "" && !hasLogin:
		return Bad("--key-file or --netrc is needed")
	case t.KeyFile != "" && t.hasNetrc && !t.Both:
		return Bad("--key-file and --netrc exclude each other: one is needed")
	case t.To == "":
		return nil
	}
	if err := server.CheckURL("--to", t.To); err != nil {
		return err
	}
	if server.IsPlain(t.To) {
		return fmt.Errorf("%s would show the key or the password to everybody on the way: "+
			"give --to a URL with https://", t.To)
	}
	return nil
}

// Server reads the login and returns the server, or nil where the command line names none.
func (t *Target) Server(name string, stdin io.Reader, stderr io.Writer) (*server.Server, error) {
	if t.To == "" {
		return nil, nil
	}
	read := func() (server.Login, error) { return server.NetrcLogin(t.Netrc, t.To) }
	if t.KeyFile != "" {
		read = func() (server.Login, error) { return server.KeyLogin(t.KeyFile, stdin) }
	}
	login, err := read()
	if err != nil {
		return nil, err
	}
	return server.New(name, t.To, login, t.Wait, stderr), nil
}
