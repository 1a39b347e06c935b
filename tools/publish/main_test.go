package main

import (
	"errors"
	"flag"
	"strings"
	"testing"
	"time"

	"example.com/goshelf-publish/internal/program"
	"example.com/goshelf-publish/internal/release"
)

func TestParse(t *testing.T) {
	to := "https://shelf.example.com"
	for line, want := range map[string]options{
		"--check a.com/b v1.0.0": {check: true, Asked: release.Asked{Module: "a.com/b", Ref: "v1.0.0"},
			Target: program.Target{Wait: time.Minute}},
		"a.com/b v1.0.0 --check --wait=2": {check: true, Asked: release.Asked{Module: "a.com/b", Ref: "v1.0.0"},
			Target: program.Target{Wait: 2 * time.Second}},
		"a.com/b --to " + to + "/ main --key-file -": {Asked: release.Asked{Module: "a.com/b", Ref: "main"},
			Target: program.Target{To: to, KeyFile: "-", Wait: time.Minute}},
	} {
		got, err := parse(strings.Fields(line))
		if err != nil || got.check != want.check || got.Asked != want.Asked || got.To != want.To || got.KeyFile != want.KeyFile ||
			got.Wait != want.Wait {
			t.Errorf("%s: %+v, %v", line, got, err)
		}
	}
	for _, line := range []string{"", "--check", "--check a", "--check a b c", "a b", "--to http://x a b", "--nosuch a b", "--to",
		"--check --wait x a b", "--check --wait 0 a b", "--check --to http://x a b", "--check --netrc a b",
		"--check --key-file x a b"} {
		if _, err := parse(strings.Fields(line)); !errors.As(err, new(program.UsageError)) {
			t.Errorf("%q is no bad usage: %v", line, err)
		}
	}
	for _, line := range []string{"--check a/!b v1", "--check /a v1", "--check a//b v1", "--check a/ v1", "--key-file f --to x a b"} {
		if _, err := parse(strings.Fields(line)); err == nil || errors.As(err, new(program.UsageError)) {
			t.Errorf("%q is not refused: %v", line, err)
		}
	}
	if _, err := parse([]string{"--help"}); !errors.Is(err, flag.ErrHelp) {
		t.Errorf("help: %v", err)
	}
}

func TestOtherPath(t *testing.T) {
	got := otherPath("gopkg.in/"+strings.Repeat("a/", 120)+"a.v2", nil)
	if len(got) > 255 || !strings.HasSuffix(got, ".v1") {
		t.Error(got)
	}
}
