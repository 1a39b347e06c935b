// Goshelf-publish publishes a version of a Go module to goshelf, from a git repository. `goshelf-publish --help` says
// how.
package main

import (
	"context"
	_ "embed"
	"errors"
	"flag"
	"fmt"
	"io"
	"os"
	"path/filepath"
	"strings"

	"example.com/goshelf-publish/internal/names"
	"example.com/goshelf-publish/internal/program"
	"example.com/goshelf-publish/internal/release"
	"example.com/goshelf-publish/internal/server"
)

//go:embed help.txt
var help string

// what stands before each sentence
const own = "publish"

func main() { program.Program{Name: own, Help: help, Run: run}.Main() }

// options are the words of a command line.
type options struct {
	program.Target
	release.Asked
	repository string
	check      bool
}

// parse reads a command line.
func parse(words []string) (it options, err error) {
	set := flag.NewFlagSet("goshelf-publish", flag.ContinueOnError)
	it.Options(set)
	set.StringVar(&it.repository, "repository", "", "")
	set.BoolVar(&it.Pseudo, "pseudo", false, "")
	set.BoolVar(&it.check, "check", false, "")
	rest, err := program.Words(set, words)
	if err != nil {
		return it, err
	}
	if len(rest) != 2 || rest[1] == "" {
		return it, program.Bad("MODULE and REF are needed, and no other words: there are %d", len(rest))
	}
	it.Module, it.Ref = rest[0], rest[1]
	if it.To == "" && !it.check {
		return it, program.Bad("--to is needed, or --check")
	}
	if err := it.Check(); err != nil {
		return it, err
	}
	switch {
	case it.Module == "command-line-arguments":
		return it, errors.New("command-line-arguments is no module, but what `go list -m` prints where no go.mod is: " +
			"run it in the repository, in the folder of the module's go.mod")
	case strings.Contains(it.Module, "!"):
		return it, fmt.Errorf("%s is not a module path: write it as the go.mod does, with capitals and without !", it.Module)
	case !names.IsPath(it.Module):
		return it, fmt.Errorf("%s is not a module path: write it as the go.mod does", it.Module)
	}
	return it, nil
}

// A publisher is one run: what it was asked to do, and what it does that with.
type publisher struct {
	options
	release.Tools
	server         *server.Server // nil without --to
	stdout, stderr io.Writer
}

// run does what the words of a command line ask for.
func run(ctx context.Context, words []string, stdin io.Reader, stdout, stderr io.Writer) error {
	asked, err := parse(words)
	if err != nil {
		return err
	}
	p := &publisher{options: asked, stdout: stdout, stderr: stderr}
	if err := release.Find(); err != nil {
		return err
	}
	if p.server, err = asked.Server(own, stdin, stderr); err != nil {
		return err
	}
	if p.server != nil {
		p.Secrets = []string{p.server.Key, p.server.Password}
	}
	work, err := os.MkdirTemp("", "publish-")
	if err != nil {
		return fmt.Errorf("no folder can be made in %s: name another by TMPDIR", os.TempDir())
	}
	defer os.RemoveAll(work)
	if p.Work, err = filepath.Abs(work); err != nil {
		return err
	}
	return p.publish(ctx)
}

// say writes a sentence about a run that goes on.
func (p *publisher) say(text string) { program.Say(p.stderr, own, text) }

// tell writes the result and the lines of go.sum, and says which commits the version does not have.
func (p *publisher) tell(result string, made *release.Release) {
	if made.After == 1 {
		p.say(fmt.Sprintf("HEAD has 1 commit to %s that %s does not have: make a new tag for it", p.Module, made.Version))
	} else if made.After > 1 {
		p.say(fmt.Sprintf("HEAD has %d commits to %s that %s does not have: make a new tag for them",
			made.After, p.Module, made.Version))
	}
	fmt.Fprintf(p.stdout, "%s %s %s\n%s", result, p.Module, made.Version, made.Lines(""))
}
