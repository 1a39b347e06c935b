// Package program has what the programs of this module share: their words, their login, signals and exit statuses.
package program

import (
	"context"
	"errors"
	"flag"
	"fmt"
	"io"
	"os"
	"os/signal"
	"runtime/debug"
	"strings"
	"syscall"
)

// A Program is its name in sentences, its help and what it does with the words of a command line.
type Program struct {
	Name, Help string
	Run        func(ctx context.Context, words []string, stdin io.Reader, stdout, stderr io.Writer) error
}

// version is set where a release is built (tools/publish/build).
var version = ""

// Version returns the version of this program: that of its release, or of the module by which it was installed.
func Version() string {
	if about, ok := debug.ReadBuildInfo(); ok && version == "" {
		return about.Main.Version
	}
	return version
}

// A UsageError is what is wrong with the words of a command line.
type UsageError struct{ error }

// Main runs a program and ends the process: with 0, 1 where it refuses, 2 for bad usage, or 128 and the signal.
func (p Program) Main() {
	ctx, stop := context.WithCancel(context.Background())
	caught, ended := make(chan os.Signal, 1), make(chan error, 1)
	signal.Notify(caught, os.Interrupt, syscall.SIGTERM, syscall.SIGHUP)
	signal.Notify(make(chan os.Signal, 1), syscall.SIGPIPE) // (unheeded: a server that hangs up gives it too)
	stdout := output{os.Stdout, caught}
	go func() { ended <- p.Run(ctx, os.Args[1:], input{ctx, os.Stdin}, stdout, os.Stderr) }()
	select {
	case err := <-ended:
		os.Exit(p.report(os.Stdout, os.Stderr, err))
	case it := <-caught:
		stop()
		finish(ended, caught)
		os.Exit(128 + int(it.(syscall.Signal)))
	}
}

// An output is standard output. Where nobody reads that any more, it stops the run, as SIGPIPE does.
type output struct {
	to     io.Writer
	caught chan<- os.Signal
}

func (o output) Write(text []byte) (int, error) {
	count, err := o.to.Write(text)
	if errors.Is(err, syscall.EPIPE) {
		select {
		case o.caught <- syscall.SIGPIPE:
		default:
		}
	}
	return count, err
}

// finish waits until a run that was stopped has removed its temporary files, unless it is stopped once more. (Each line
// that nobody reads is a SIGPIPE.)
func finish(ended <-chan error, caught <-chan os.Signal) {
	for {
		select {
		case <-ended:
			return
		case it := <-caught:
			if it != syscall.SIGPIPE {
				return
			}
		}
	}
}

// An input is read until its context ends. Without that, nobody could stop a run that waits for a terminal.
type input struct {
	ctx  context.Context
	from io.Reader
}

func (i input) Read(into []byte) (int, error) {
	type part struct {
		text []byte
		err  error
	}
	came := make(chan part, 1)
	go func() {
		text := make([]byte, len(into))
		count, err := i.from.Read(text)
		came <- part{text[:count], err}
	}()
	select {
	case it := <-came:
		return copy(into, it.text), it.err
	case <-i.ctx.Done():
		return 0, i.ctx.Err()
	}
}

// report says why a run failed, and returns the exit status of the program.
func (p Program) report(stdout, stderr io.Writer, err error) int {
	switch {
	case err == nil:
		return 0
	case errors.Is(err, flag.ErrHelp):
		fmt.Fprint(stdout, p.Help)
		return 0
	case errors.Is(err, errVersion):
		command, _, _ := strings.Cut(p.Help, ":")
		fmt.Fprintln(stdout, command, Version())
		return 0
	}
	if errors.Is(err, ErrSaid) {
		return 1
	}
	Say(stderr, p.Name, err.Error())
	if !errors.As(err, new(UsageError)) {
		return 1
	}
	_, usage, _ := strings.Cut(p.Help, "\n\n")
	usage, _, _ = strings.Cut(usage, "\n\n")
	fmt.Fprintln(stderr, usage)
	return 2
}

// ErrSaid ends a run that has said already what went wrong.
var ErrSaid = errors.New("said already")

// Say writes a text, each line after the name of a program.
func Say(stderr io.Writer, name, text string) {
	for _, line := range strings.Split(text, "\n") {
		fmt.Fprintf(stderr, "%s: %s\n", name, line)
	}
}

// Bad returns a UsageError.
func Bad(format string, words ...any) error { return UsageError{fmt.Errorf(format, words...)} }

var errVersion = errors.New("the version is asked for")

// Words reads the options of a command line, which may stand anywhere, and returns the other words.
func Words(set *flag.FlagSet, words []string) (names []string, err error) {
	set.SetOutput(io.Discard)
	if len(words) == 1 && words[0] == "--version" {
		return nil, errVersion
	}
	for {
		if err := set.Parse(words); errors.Is(err, flag.ErrHelp) {
			return nil, err
		} else if err != nil {
			return nil, UsageError{err}
		}
		if set.NArg() == 0 {
			return names, nil
		}
		names, words = append(names, set.Arg(0)), set.Args()[1:]
	}
}
