// Goshelf-adopt takes versions over from elsewhere. `goshelf-adopt --help` says how.
package main

import (
	"context"
	_ "embed"
	"errors"
	"flag"
	"fmt"
	"io"
	"os"
	"strings"

	"example.com/goshelf-publish/internal/names"
	"example.com/goshelf-publish/internal/program"
	"example.com/goshelf-publish/internal/server"
)

//go:embed help.txt
var help string

// what stands before each sentence
const own = "adopt"

func main() { program.Program{Name: own, Help: help, Run: run}.Main() }

// An adopter is one run: where versions go, and what became of them.
type adopter struct {
	ctx                     context.Context
	to                      sink
	stderr                  io.Writer
	taken, there, wrong     int
	withoutZip, withoutTime int
	stopped                 error
}

// run does what the words of a command line ask for.
func run(ctx context.Context, words []string, stdin io.Reader, stdout, stderr io.Writer) error {
	set := flag.NewFlagSet("goshelf-adopt", flag.ContinueOnError)
	target := program.Target{}
	target.Options(set)
	from := set.String("from", "", "")
	rest, err := program.Words(set, words)
	if err != nil {
		return err
	}
	target.Both = *from != ""
	if err := target.Check(); err != nil {
		return err
	}
	if len(rest) == 0 {
		return program.Bad("a FOLDER is needed, or --from and a PATH")
	}
	if *from != "" && target.To == "" {
		return program.Bad("--from needs --to")
	}
	if *from != "" && target.KeyFile == "-" && rest[0] == "-" {
		return program.Bad("standard input has the key or the paths: one of them is in a file")
	}
	a := &adopter{ctx: ctx, stderr: stderr}
	if a.to, err = a.sink(target, stdin, stdout); err != nil {
		return err
	}
	if *from != "" {
		return a.fromProxy(*from, target, rest, stdin)
	}
	return a.fromFolder(rest[0], rest[1:])
}

// sink returns where versions go: to a list, or to goshelf, if it knows the login.
func (a *adopter) sink(target program.Target, stdin io.Reader, stdout io.Writer) (sink, error) {
	goshelf, err := target.Server(own, stdin, a.stderr)
	if err != nil {
		return nil, err
	}
	if goshelf == nil {
		return newList(stdout), nil
	}
	to := &shelf{Server: goshelf, ctx: a.ctx, stdout: stdout}
	if target.KeyFile == "" {
		to.netrc = target.Netrc
	}
	return to, to.check()
}

// fromFolder takes the versions of a folder.
func (a *adopter) fromFolder(folder string, paths []string) error {
	if about, err := os.Stat(folder); err != nil || !about.IsDir() {
		return fmt.Errorf("%s is not a folder", folder)
	}
	top, err := topOf(folder)
	if err != nil {
		return err
	}
	inFolder(top, func(it *version) {
		if isBelow(it.path, paths) {
			a.take(it)
		}
	}, a.leaveOut)
	return a.end(folder)
}

// fromProxy takes the versions of these modules of a GOPROXY.
func (a *adopter) fromProxy(from string, target program.Target, words []string, stdin io.Reader) error {
	from = strings.TrimSuffix(from, "/")
	if err := server.CheckURL("--from", from); err != nil {
		return err
	}
	login := server.Login{}
	if target.Netrc != "" {
		if server.IsPlain(from) {
			return fmt.Errorf("%s would show the password to everybody on the way: give --from a URL with https://", from)
		}
		var err error
		if login, err = server.NetrcLogin(target.Netrc, from); err != nil {
			return err
		}
	}
	source := &proxy{server.New(own, from, login, target.Wait, a.stderr).Follow(), a.ctx, target.Netrc}
	if len(words) == 1 && words[0] == "-" {
		text, err := io.ReadAll(stdin)
		if err != nil {
			return fmt.Errorf("standard input cannot be read: %w", err)
		}
		words = strings.Fields(string(text))
	}
	for _, word := range words {
		a.modules(source, word)
	}
	return a.end(from)
}

// modules takes the versions that a word names.
func (a *adopter) modules(source *proxy, word string) {
	if a.stopped != nil {
		return
	}
	all, err := source.versions(word)
	if err != nil {
		a.leaveOut(word, err)
	}
	for _, it := range all {
		a.take(it)
	}
}

// take takes a version, unless it is there.
func (a *adopter) take(it *version) {
	if a.stopped != nil {
		return
	}
	if !it.source.has(it.zip) {
		a.withoutZip++
		return
	}
	isThere, err := a.to.has(it)
	if isThere {
		a.there++
		return
	}
	var held contents
	if err == nil {
		held, err = it.load()
	}
	if err == nil {
		err = a.to.take(it, held)
	}
	if err != nil {
		a.leaveOut(it.path+" "+it.version, err)
		return
	}
	a.taken++
	if held.time == "" && names.Revision(it.version) == "" {
		a.withoutTime++
	}
}

// leaveOut says why something is not taken. What every other version would meet ends the run.
func (a *adopter) leaveOut(what string, err error) {
	a.wrong++
	a.say("left out %s: %v", what, err)
	if errors.As(err, new(errStop)) || a.ctx.Err() != nil {
		a.stopped = err
	}
}

func (a *adopter) say(format string, words ...any) {
	program.Say(a.stderr, own, fmt.Sprintf(format, words...))
}

// end says how many versions were taken, and why there may be fewer than somebody thinks.
func (a *adopter) end(from string) error {
	if _, isList := a.to.(list); !isList {
		a.say("%d published, %d there before, %d left out", a.taken, a.there, a.wrong)
	}
	if a.withoutZip > 0 {
		a.say("%d versions have a go.mod and no zip, and were left out", a.withoutZip)
	}
	if a.withoutTime > 0 {
		a.say("%d versions have no time: `go get -u` cannot compare them with pseudo-versions", a.withoutTime)
	}
	switch {
	case a.stopped != nil:
		return errors.New("stopped there: run this again, and it goes on")
	case a.taken+a.there == 0:
		return fmt.Errorf("%s has no version to list", from)
	case a.wrong > 0:
		return program.ErrSaid
	}
	return nil
}
