package program

import (
	"context"
	"errors"
	"flag"
	"io"
	"os"
	"os/signal"
	"reflect"
	"strings"
	"syscall"
	"testing"
)

func TestReport(t *testing.T) {
	version = "v9"
	p := Program{Name: "it", Help: "it: does\n\nusage: it\n       it --more\n\nmore\n"}
	for _, it := range []struct {
		err            error
		status         int
		stdout, stderr string
	}{
		{nil, 0, "", ""}, {flag.ErrHelp, 0, p.Help, ""}, {errVersion, 0, "it v9\n", ""}, {ErrSaid, 1, "", ""}, {errors.New("a\nb"), 1, "", "it: a\nit: b\n"},
		{Bad("no %s", "word"), 2, "", "it: no word\nusage: it\n       it --more\n"},
	} {
		var stdout, stderr strings.Builder
		if got := p.report(&stdout, &stderr, it.err); got != it.status || stdout.String() != it.stdout || stderr.String() != it.stderr {
			t.Errorf("%v: %d, %q, %q", it.err, got, stdout.String(), stderr.String())
		}
	}
}

// TestFinish has lines to a pipe that nobody reads not end a run before it has ended, as somebody who stops it twice does.
func TestFinish(t *testing.T) {
	ended, caught, done := make(chan error), make(chan os.Signal), make(chan bool)
	for _, last := range []func(){func() { ended <- nil }, func() { caught <- os.Interrupt }} {
		go func() {
			finish(ended, caught)
			done <- true
		}()
		caught <- syscall.SIGPIPE
		caught <- syscall.SIGPIPE
		last()
		<-done
	}
}

// TestOutput has a pipe that nobody reads stop a run, and no run wait for that.
func TestOutput(t *testing.T) {
	signal.Notify(make(chan os.Signal, 1), syscall.SIGPIPE)
	reader, writer, err := os.Pipe()
	if err != nil {
		t.Fatal(err)
	}
	defer writer.Close()
	caught := make(chan os.Signal, 1)
	it := output{writer, caught}
	if count, err := it.Write([]byte("a")); count != 1 || err != nil || len(caught) != 0 {
		t.Errorf("%d, %v, %d", count, err, len(caught))
	}
	reader.Close()
	for range []int{1, 2} {
		if _, err := it.Write([]byte("a")); err == nil || len(caught) != 1 {
			t.Errorf("%v, %d", err, len(caught))
		}
	}
	if got := <-caught; got != syscall.SIGPIPE {
		t.Error(got)
	}
}

// TestInput reads what is there, and ends where nothing comes any more.
func TestInput(t *testing.T) {
	ctx, stop := context.WithCancel(context.Background())
	got, err := io.ReadAll(input{ctx, strings.NewReader("a key")})
	if string(got) != "a key" || err != nil {
		t.Errorf("%q, %v", got, err)
	}
	silent, end := io.Pipe()
	defer end.Close()
	stop()
	if _, err := io.ReadAll(input{ctx, silent}); !errors.Is(err, context.Canceled) {
		t.Error(err)
	}
}

func TestWords(t *testing.T) {
	set := flag.NewFlagSet("", flag.ContinueOnError)
	one := set.String("one", "", "")
	got, err := Words(set, strings.Fields("a --one=1 b -- --one"))
	if err != nil || *one != "1" || !reflect.DeepEqual(got, []string{"a", "b", "--one"}) {
		t.Errorf("%q, %q, %v", got, *one, err)
	}
	if _, err := Words(set, []string{"--two"}); !errors.As(err, new(UsageError)) {
		t.Error(err)
	}
}

// TestPlain refuses a key and a password over http, except within this machine.
func TestPlain(t *testing.T) {
	for line, want := range map[string]string{
		"--to http://shelf.example --key-file -": "would show the key", "--to http://shelf.example --netrc": "would show the key",
		"--to http://127.0.0.1:1 --key-file -": "does not hold one key", "--to https://shelf.example --key-file -": "does not hold one key",
	} {
		set, to := flag.NewFlagSet("", flag.ContinueOnError), Target{}
		to.Options(set)
		_, err := Words(set, strings.Fields(line))
		if err == nil {
			err = to.Check()
		}
		if err == nil {
			_, err = to.Server("it", strings.NewReader(""), io.Discard)
		}
		if err == nil || !strings.Contains(err.Error(), want) {
			t.Errorf("%s: %v", line, err)
		}
	}
}
