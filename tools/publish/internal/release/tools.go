// Package release has the go command make a version of a module: from a clone, or from the host that its path names.
package release

import (
	"bytes"
	"context"
	"fmt"
	"net/url"
	"os"
	"os/exec"
	"path/filepath"
	"runtime"
	"strings"
)

// Tools run git and the go command, with a folder of temporary files. No child has a setting that holds a secret.
type Tools struct {
	Work    string
	Secrets []string
}

// A failure is a command that ended badly: the last line that it said.
type failure struct{ last string }

func (it failure) Error() string { return it.last }

// A command is what is run: its words, its folder and its settings, which come after those of this process.
type command struct {
	words, settings []string
	folder          string
}

// Find says which command is missing.
func Find() error {
	for _, name := range []string{"git", "go"} {
		if _, err := exec.LookPath(name); err != nil {
			return fmt.Errorf("there is no command %s: install it", name)
		}
	}
	return nil
}

// output runs a command and returns its standard output, also if it fails.
func (t Tools) output(ctx context.Context, it command) ([]byte, error) {
	var stdout, stderr bytes.Buffer
	cmd := exec.CommandContext(ctx, it.words[0], it.words[1:]...)
	cmd.Dir, cmd.Env = it.folder, append(t.environment(os.Environ(), runtime.GOOS), it.settings...)
	cmd.Stdout, cmd.Stderr = &stdout, &stderr
	err := cmd.Run()
	if err == nil {
		return stdout.Bytes(), nil
	}
	for _, said := range []string{lastLine(stderr.String()), lastLine(stdout.String()), err.Error()} {
		if said != "" {
			return stdout.Bytes(), failure{said}
		}
	}
	return stdout.Bytes(), err
}

func lastLine(text string) string {
	text = strings.TrimSpace(text)
	text = text[strings.LastIndexByte(text, '\n')+1:]
	return strings.TrimPrefix(strings.TrimSpace(text), "fatal: ")
}

// dropped are settings by which a hook of git names its repository, and one that makes the go command a CGI program.
var dropped = map[string]bool{"GIT_DIR": true, "GIT_WORK_TREE": true, "GIT_INDEX_FILE": true, "GIT_COMMON_DIR": true,
	"GIT_OBJECT_DIRECTORY": true, "GIT_ALTERNATE_OBJECT_DIRECTORIES": true, "GIT_PREFIX": true, "GIT_NAMESPACE": true,
	"GIT_DEFAULT_HASH": true, "REQUEST_METHOD": true}

// environment returns the settings of this process that a child may have, on a system of this name.
func (t Tools) environment(own []string, system string) (kept []string) {
	hasHome := system == "windows" // (git finds it without HOME, and in HOME alone where that is set)
	for _, it := range own {
		name, value, _ := strings.Cut(it, "=")
		if !dropped[strings.ToUpper(name)] && !t.isSecret(value) {
			kept = append(kept, it)
			hasHome = hasHome || name == "HOME" && value != ""
		}
	}
	if !hasHome { // (a job may have no home, and the go command wants one)
		kept = append(kept, "HOME="+t.Work)
	}
	return append(kept, "LC_ALL=C")
}

func (t Tools) isSecret(value string) bool {
	for _, it := range t.Secrets {
		if it != "" && (value == it || len(it) >= 8 && strings.Contains(value, it)) {
			return true
		}
	}
	return false
}

// git runs git in a folder.
func (t Tools) git(ctx context.Context, folder string, words ...string) ([]byte, error) {
	return t.output(ctx, command{words: append([]string{"git", "-C", folder}, words...)})
}

// A setting is what a run of the go command differs in: its folder below the temporary ones, its GOPROXY, its module
// cache, and more.
type setting struct {
	folder, proxy, cache string
	more                 []string
}

// goCommand runs the go command, in a module of its own: otherwise it takes the go.mod and go.sum of any folder above,
// as of /tmp, where anybody writes. Settings whose caches may differ have a folder each, as its go.sum counts for all.
func (t Tools) goCommand(ctx context.Context, with setting, words ...string) ([]byte, error) {
	own := []string{"GO111MODULE=on", "GOFLAGS=-modcacherw", "GOPROXY=" + with.proxy, "GONOPROXY=none", "GOSUMDB=off",
		"GOWORK=off", "GOTOOLCHAIN=local", "GOMODCACHE=" + t.at(with.cache), "GOPATH=" + t.at("gopath"),
		"TMPDIR=" + t.Work, "TMP=" + t.Work, "TEMP=" + t.Work, "GOTMPDIR=" + t.Work}
	own = append(own, with.more...)
	if _, err := os.Stat(t.at(with.folder + "/go.mod")); err != nil {
		if err := t.Write(with.folder+"/go.mod", []byte("module goshelf.invalid/own\n\ngo 1.16\n")); err != nil {
			return nil, err
		}
	}
	return t.output(ctx, command{append([]string{"go"}, words...), own, t.at(with.folder)})
}

// at returns a temporary file's name.
func (t Tools) at(name string) string { return filepath.Join(t.Work, filepath.FromSlash(name)) }

// Write writes a temporary file, and makes its folder.
func (t Tools) Write(name string, content []byte) error {
	err := os.MkdirAll(filepath.Dir(t.at(name)), 0o755)
	if err == nil {
		err = os.WriteFile(t.at(name), content, 0o644)
	}
	if err != nil {
		return fmt.Errorf("a temporary file: %w", err)
	}
	return nil
}

// proxy returns a GOPROXY that is a temporary folder.
func (t Tools) proxy(folder string) string { return fileURL(filepath.ToSlash(t.at(folder))) }

// fileURL returns the URL of a folder, as the go command of any system reads it. (A comma would end it in GOPROXY.)
func fileURL(path string) string {
	at := url.URL{Scheme: "file", Path: path}
	switch host, below, _ := strings.Cut(strings.TrimPrefix(path, "//"), "/"); {
	case strings.HasPrefix(path, "//"): // (a share of a server)
		at.Host, at.Path = host, "/"+below
	case !strings.HasPrefix(path, "/"): // (a drive letter)
		at.Path = "/" + path
	}
	return strings.ReplaceAll(at.String(), ",", "%2C")
}
