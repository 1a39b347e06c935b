package main

import (
	"bytes"
	"context"
	"encoding/json"
	"os"
	"os/exec"
	"path/filepath"
	"strings"
	"testing"

	"example.com/goshelf-publish/internal/release"
)

// the module at the top of each repository; the go command knows the host, so it needs no answer to find one by insteadOf
const root = "github.com/acme/x"

// A repo is a git repository of a test.
type repo struct {
	t      *testing.T
	folder string
}

func newRepo(t *testing.T, words ...string) *repo {
	t.Helper()
	if _, err := exec.LookPath("git"); err != nil || testing.Short() {
		t.Skip("it takes git, and seconds")
	}
	r := &repo{t, filepath.Join(t.TempDir(), "a repository")}
	if err := os.MkdirAll(r.folder, 0o755); err != nil {
		t.Fatal(err)
	}
	r.git(append([]string{"init", "-q", "-b", "main"}, words...)...)
	return r
}

func (r *repo) git(words ...string) string {
	r.t.Helper()
	cmd := exec.Command("git", append([]string{"-C", r.folder, "-c", "user.name=me", "-c", "user.email=me@example.com",
		"-c", "protocol.file.allow=always"}, words...)...)
	cmd.Env = append(os.Environ(), "GIT_COMMITTER_DATE=2024-01-31T12:00:00Z", "GIT_AUTHOR_DATE=2024-01-31T12:00:00Z")
	told, err := cmd.CombinedOutput()
	if err != nil {
		r.t.Fatalf("git %q: %v\n%s", words, err, told)
	}
	return strings.TrimSpace(string(told))
}

// commit commits files, given as a name and a text in turns, and tags the commit. A name that begins with @ is a symbolic link.
func (r *repo) commit(files []string, tags ...string) *repo {
	r.t.Helper()
	for at := 0; at+1 < len(files); at += 2 {
		name := filepath.Join(r.folder, strings.TrimPrefix(files[at], "@"))
		if err := os.MkdirAll(filepath.Dir(name), 0o755); err != nil {
			r.t.Fatal(err)
		}
		var err error
		if strings.HasPrefix(files[at], "@") {
			err = os.Symlink(files[at+1], name)
		} else {
			err = os.WriteFile(name, []byte(files[at+1]), 0o644)
		}
		if err != nil {
			r.t.Fatal(err)
		}
	}
	r.git("-c", "core.autocrlf=false", "add", "-A", "-f")
	r.git("commit", "-q", "--allow-empty", "-m", "a change")
	return r.tag(tags...)
}

func (r *repo) tag(tags ...string) *repo {
	for _, it := range tags {
		r.git("tag", it)
	}
	return r
}

// top returns the files of a module at the top of a repository, and more.
func top(more ...string) []string { return append(in("", root), more...) }

// in returns the files of a module in a folder, and more.
func in(folder, module string, more ...string) []string {
	return append([]string{folder + "go.mod", "module " + module + "\n\ngo 1.17\n", folder + "x.go", "package x\n"}, more...)
}

// direct returns what the go command says of a version that it fetches from the repository itself, or "".
func direct(t *testing.T, r *repo, module, ref string) string {
	t.Helper()
	folder := t.TempDir()
	if err := os.WriteFile(folder+"/go.mod", []byte("module goshelf.invalid/own\n\ngo 1.16\n"), 0o644); err != nil {
		t.Fatal(err)
	}
	cmd := exec.Command("go", "mod", "download", "-json", module+"@"+ref)
	cmd.Dir, cmd.Env = folder, append(os.Environ(), "GOPROXY=direct", "GOSUMDB=off", "GOFLAGS=-mod=mod -modcacherw", "GO111MODULE=on",
		"GOMODCACHE="+folder+"/cache", "GOVCS=*:git", "GOENV=off", "GOWORK=off", "GIT_CONFIG_NOSYSTEM=1", "GIT_CONFIG_COUNT=2",
		"GIT_CONFIG_KEY_0=url."+r.folder+".insteadOf", "GIT_CONFIG_VALUE_0=https://github.com/acme/x",
		"GIT_CONFIG_KEY_1=protocol.file.allow", "GIT_CONFIG_VALUE_1=always")
	told, err := cmd.Output()
	var made release.Release
	if json.Unmarshal(told, &made) != nil || err != nil {
		t.Logf("direct: %s", strings.ReplaceAll(made.Error, "\n", " "))
		return ""
	}
	return "checked " + module + " " + made.Version + "\n" + made.Lines("")
}

// published returns what this program says of the version, or "".
func published(t *testing.T, folder, module, ref string) string {
	t.Helper()
	var stdout, stderr bytes.Buffer
	words := []string{"--check", "--pseudo", "--repository", folder, module, ref}
	if err := run(context.Background(), words, nil, &stdout, &stderr); err != nil {
		t.Logf("publish: %v", err)
		return ""
	}
	return stdout.String()
}

// zipCases are versions of repositories, by what is odd about each. The go command makes none of those whose name begins with "no ".
var zipCases = []struct {
	name, module, ref string
	make              func(r *repo)
}{
	{"plain", root, "v1.0.0", func(r *repo) { r.commit(top(), "v1.0.0") }},
	{"folders", root, "v1.0.0", func(r *repo) { r.commit(top("a/b/c/y.go", "package c\n", "doc/a.txt", "text"), "v1.0.0") }},
	{"a nested module is left out", root, "v1.0.0", func(r *repo) { r.commit(top(in("sub/", root+"/sub")...), "v1.0.0") }},
	{"a nested module", root + "/sub", "sub/v0.1.0", func(r *repo) { r.commit(top(in("sub/", root+"/sub")...), "sub/v0.1.0") }},
	{"a nested module, by its version", root + "/sub", "v0.1.0", func(r *repo) {
		r.commit(top(in("sub/", root+"/sub")...), "v0.1.0").commit([]string{"sub/x.go", "package y\n"}, "sub/v0.1.0")
	}},
	{"a deep module", root + "/a/b", "a/b/v1.0.0", func(r *repo) { r.commit(top(in("a/b/", root+"/a/b")...), "a/b/v1.0.0") }},
	{"a module in a nested one", root + "/a", "a/v1.0.0", func(r *repo) {
		r.commit(append(in("a/", root+"/a"), in("a/b/", root+"/a/b")...), "a/v1.0.0")
	}},
	{"no module at the top", root + "/a", "a/v1.0.0", func(r *repo) { r.commit(in("b/", root+"/b"), "a/v1.0.0") }},
	{"a nested module in testdata", root, "v1.0.0", func(r *repo) { r.commit(top(in("testdata/m/", "m")...), "v1.0.0") }},
	{"vendor", root, "v1.0.0", func(r *repo) {
		r.commit(top("vendor/modules.txt", "# a\n", "vendor/a.com/b/b.go", "package b\n"), "v1.0.0")
	}},
	{"vendor in a folder", root, "v1.0.0", func(r *repo) {
		r.commit(top("a/vendor/b/b.go", "package b\n", "a/vendor/c.go", "package vendor\n"), "v1.0.0")
	}},
	{"vendor of a nested module", root + "/sub", "sub/v1.0.0", func(r *repo) {
		r.commit(in("sub/", root+"/sub", "sub/vendor/modules.txt", "# a\n", "sub/vendor/a/a.go", "package a\n"), "sub/v1.0.0")
	}},
	{"names like vendor", root, "v1.0.0", func(r *repo) {
		r.commit(top("vendor.go", "package x\n", "vendored/a.go", "package a\n", "a/vendor", "a file"), "v1.0.0")
	}},
	{"a link to a file", root, "v1.0.0", func(r *repo) { r.commit(top("@link.go", "x.go"), "v1.0.0") }},
	{"a link to a folder", root, "v1.0.0", func(r *repo) { r.commit(top("a/a.go", "package a\n", "@b", "a"), "v1.0.0") }},
	{"a link out of the repository", root, "v1.0.0", func(r *repo) { r.commit(top("@passwd", "/etc/passwd"), "v1.0.0") }},
	{"no go.mod but a link", root, "v1.0.0", func(r *repo) {
		r.commit([]string{"real.mod", "module " + root + "\n", "@go.mod", "real.mod", "x.go", "package x\n"}, "v1.0.0")
	}},
	{"export-ignore", root, "v1.0.0", func(r *repo) {
		r.commit(top(".gitattributes", "secret.txt export-ignore\n", "secret.txt", "kept\n"), "v1.0.0")
	}},
	{"export-subst", root, "v1.0.0", func(r *repo) {
		r.commit(top(".gitattributes", "*.txt export-subst\n", "a.txt", "$Format:%H$\n"), "v1.0.0")
	}},
	{"attributes of a folder", root + "/sub", "sub/v1.0.0", func(r *repo) {
		r.commit(in("sub/", root+"/sub", "sub/.gitattributes", "* export-ignore\n*.txt export-subst\n", "sub/a.txt", "$Format:%H$"), "sub/v1.0.0")
	}},
	{"eol=crlf", root, "v1.0.0", func(r *repo) {
		r.commit(top(".gitattributes", "*.txt text eol=crlf\n", "a.txt", "a\nb\n"), "v1.0.0")
	}},
	{"text=auto", root, "v1.0.0", func(r *repo) {
		r.commit(top("a.txt", "a\r\nb\r\n"), "v0.1.0").commit([]string{".gitattributes", "* text=auto\n"}, "v1.0.0")
	}},
	{"carriage returns", root, "v1.0.0", func(r *repo) { r.commit(top("a.txt", "a\r\nb\n", "b.bat", "dir\r\n"), "v1.0.0") }},
	{"carriage returns in the go.mod", root, "v1.0.0", func(r *repo) {
		r.commit([]string{"go.mod", "module " + root + "\r\n\r\ngo 1.17\r\n", "x.go", "package x\r\n"}, "v1.0.0")
	}},
	{"ident", root, "v1.0.0", func(r *repo) { r.commit(top(".gitattributes", "*.txt ident\n", "a.txt", "$Id$\n"), "v1.0.0") }},
	{"an encoding of the work tree", root, "v1.0.0", func(r *repo) {
		r.commit(top(".gitattributes", "a.txt text working-tree-encoding=UTF-16LE-BOM\n", "a.txt", "\xff\xfea\x00\n\x00"), "v1.0.0")
	}},
	{"a filter that nobody has", root, "v1.0.0", func(r *repo) {
		r.commit(top(".gitattributes", "*.bin filter=large diff=large merge=large -text\n", "a.bin", "version 1\noid sha256:00\n"), "v1.0.0")
	}},
	{"a LICENSE of the top", root + "/sub", "sub/v1.0.0", func(r *repo) {
		r.commit(in("sub/", root+"/sub", "LICENSE", "of the top\n"), "sub/v1.0.0")
	}},
	{"a LICENSE of its own", root + "/sub", "sub/v1.0.0", func(r *repo) {
		r.commit(in("sub/", root+"/sub", "LICENSE", "of the top\n", "sub/LICENSE", "its own\n"), "sub/v1.0.0")
	}},
	{"a LICENSE of the top for v2", root + "/v2", "v2.0.0", func(r *repo) {
		r.commit(top(in("v2/", root+"/v2", "LICENSE", "of the top\n")...), "v2.0.0")
	}},
	{"a LICENSE that is a link", root + "/sub", "sub/v1.0.0", func(r *repo) {
		r.commit(in("sub/", root+"/sub", "COPYING", "text\n", "@LICENSE", "COPYING"), "sub/v1.0.0")
	}},
	{"another name than LICENSE", root + "/sub", "sub/v1.0.0", func(r *repo) {
		r.commit(in("sub/", root+"/sub", "LICENSE.md", "text\n"), "sub/v1.0.0")
	}},
	{"v2 in a folder", root + "/v2", "v2.0.0", func(r *repo) { r.commit(top(in("v2/", root+"/v2")...), "v2.0.0") }},
	{"v2 at the top", root + "/v2", "v2.1.0", func(r *repo) { r.commit(in("", root+"/v2"), "v2.1.0") }},
	{"v2 at the top, with the folder of v3", root + "/v2", "v2.1.0", func(r *repo) {
		r.commit(append(in("", root+"/v2"), in("v3/", root+"/v3")...), "v2.1.0", "v3.0.0")
	}},
	{"v3 of a nested module", root + "/sub/v3", "sub/v3.0.0", func(r *repo) {
		r.commit(append(in("sub/", root+"/sub"), in("sub/v3/", root+"/sub/v3")...), "sub/v3.0.0")
	}},
	{"v2 of a nested module in its folder", root + "/sub/v2", "sub/v2.0.0", func(r *repo) { r.commit(in("sub/", root+"/sub/v2"), "sub/v2.0.0") }},
	{"no path of v2", root, "v2.0.0", func(r *repo) { r.commit(top(), "v2.0.0") }},
	{"incompatible", root, "v2.0.0", func(r *repo) { r.commit([]string{"x.go", "package x\n"}, "v2.0.0") }},
	{"incompatible, by its name", root, "v3.1.0+incompatible", func(r *repo) { r.commit([]string{"x.go", "package x\n"}, "v3.1.0") }},
	{"a repository without a go.mod", root, "v1.0.0", func(r *repo) { r.commit([]string{"x.go", "package x\n"}, "v1.0.0") }},
	{"a pseudo-version without tags", root, "main", func(r *repo) { r.commit(top()) }},
	{"a pseudo-version after a release", root, "main", func(r *repo) { r.commit(top(), "v1.2.3").commit([]string{"a.go", "package x\n"}) }},
	{"a pseudo-version after a pre-release", root, "main", func(r *repo) {
		r.commit(top(), "v1.2.3-rc.1").commit([]string{"a.go", "package x\n"})
	}},
	{"a pseudo-version of a nested module", root + "/sub", "main", func(r *repo) {
		r.commit(top(in("sub/", root+"/sub")...), "v9.0.0", "sub/v0.3.0").commit([]string{"sub/a.go", "package x\n"})
	}},
	{"a pseudo-version of v2", root + "/v2", "main", func(r *repo) { r.commit(in("", root+"/v2"), "v2.0.0").commit([]string{"a", "b"}) }},
	{"an incompatible pseudo-version", root, "main", func(r *repo) {
		r.commit([]string{"x.go", "package x\n"}, "v2.0.0").commit([]string{"a", "b"})
	}},
	{"a pseudo-version of a branch with a slash", root, "side", func(r *repo) {
		r.commit(top(), "v1.0.0").git("checkout", "-q", "-b", "side")
		r.commit([]string{"a", "b"})
	}},
	{"a branch whose commit has a tag", root, "main", func(r *repo) { r.commit(top(), "v1.0.0", "v1.0.1") }},
	{"a pre-release", root, "v1.0.0-rc.1", func(r *repo) { r.commit(top(), "v1.0.0-rc.1") }},
	{"a pre-release in capitals", root, "v1.0.0-RC.1", func(r *repo) { r.commit(top(), "v1.0.0-RC.1") }},
	{"an annotated tag", root, "v1.0.0", func(r *repo) { r.commit(top()).git("tag", "-a", "-m", "text", "v1.0.0") }},
	{"a tag that no branch has", root, "v1.0.0", func(r *repo) {
		r.commit(top()).git("checkout", "-q", "--detach")
		r.commit([]string{"a", "b"}, "v1.0.0").git("checkout", "-q", "main")
	}},
	{"a folder with a capital", root + "/Words", "Words/v1.0.0", func(r *repo) { r.commit(in("Words/", root+"/Words"), "Words/v1.0.0") }},
	{"a folder with marks", root + "/a.b-c_d", "a.b-c_d/v1.0.0", func(r *repo) {
		r.commit(in("a.b-c_d/", root+"/a.b-c_d"), "a.b-c_d/v1.0.0")
	}},
	{"no two files by case", root, "v1.0.0", func(r *repo) { r.commit(top("a.go", "package x\n", "A.go", "package x\n"), "v1.0.0") }},
	{"no two folders by case", root, "v1.0.0", func(r *repo) { r.commit(top("b/a.go", "package b\n", "B/b.go", "package b\n"), "v1.0.0") }},
	{"no file with a colon", root, "v1.0.0", func(r *repo) { r.commit(top("a:b", "text"), "v1.0.0") }},
	{"no file with a name of Windows", root, "v1.0.0", func(r *repo) { r.commit(top("con.go", "package x\n"), "v1.0.0") }},
	{"no file with a dot at its end", root, "v1.0.0", func(r *repo) { r.commit(top("a.", "text"), "v1.0.0") }},
	{"no file with an apostrophe", root, "v1.0.0", func(r *repo) { r.commit(top("it's", "text"), "v1.0.0") }},
	{"no file with a picture", root, "v1.0.0", func(r *repo) { r.commit(top("\U0001f600.txt", "text"), "v1.0.0") }},
	{"no file with a line end", root, "v1.0.0", func(r *repo) { r.commit(top("a\nb", "text"), "v1.0.0") }},
	{"a go.mod in capitals in a folder", root, "v1.0.0", func(r *repo) { r.commit(top("sub/GO.MOD", "text"), "v1.0.0") }},
	{"no go.mod in capitals, at the top", root, "v1.0.0", func(r *repo) { r.commit([]string{"GO.MOD", "module x\n", "x.go", "package x\n"}, "v1.0.0") }},
	{"no LICENSE over 16 MiB", root, "v1.0.0", func(r *repo) { r.commit(top("LICENSE", strings.Repeat("a", 17<<20)), "v1.0.0") }},
	{"no go.mod over 16 MiB", root, "v1.0.0", func(r *repo) { r.commit(top("go.mod", "module "+root+"\n//"+strings.Repeat("a", 17<<20)), "v1.0.0") }},
	{"a letter beyond ASCII", root, "v1.0.0", func(r *repo) { r.commit(top("\u00e4\u4e16.go", "package x\n"), "v1.0.0") }},
	{"a name with marks and a space", root, "v1.0.0", func(r *repo) { r.commit(top("a b !#$%&()+,-.=@[]^_{}~.txt", "text"), "v1.0.0") }},
	{"a bad name in a nested module", root, "v1.0.0", func(r *repo) { r.commit(top(in("sub/", root+"/sub", "sub/a:b", "text")...), "v1.0.0") }},
	{"a bad name in vendor", root, "v1.0.0", func(r *repo) { r.commit(top("vendor/a/a:b", "text"), "v1.0.0") }},
	{"files with a dot, and ignored", root, "v1.0.0", func(r *repo) {
		r.commit(top(".gitignore", "*.log\n", "a.log", "kept\n", ".github/a.yml", "a: b\n", "_a/b.go", "package b\n"), "v1.0.0")
	}},
	{"an empty file, and one that runs", root, "v1.0.0", func(r *repo) {
		r.commit(top("empty", "", "run.sh", "#!/bin/sh\n")).git("update-index", "--chmod=+x", "run.sh")
		r.git("commit", "-q", "-m", "it runs")
		r.git("checkout", "-q", ".")
		r.tag("v1.0.0")
	}},
	{"a submodule of git", root, "v1.0.0", func(r *repo) {
		other := newRepo(r.t).commit([]string{"a.txt", "text"})
		r.commit(top()).git("submodule", "--quiet", "add", other.folder, "other")
		r.git("commit", "-q", "-m", "a submodule")
		r.tag("v1.0.0")
	}},
	{"replaced objects", root, "v1.0.0", func(r *repo) {
		r.commit(top("a.txt", "one\n"), "v1.0.0")
		one := r.git("rev-parse", "v1.0.0:a.txt")
		r.commit([]string{"a.txt", "two\n"})
		r.git("replace", one, r.git("rev-parse", "main:a.txt"))
	}},
	{"attributes of the clone", root, "v1.0.0", func(r *repo) {
		r.commit(top("a.txt", "$Id$\n"), "v1.0.0")
		if err := os.WriteFile(filepath.Join(r.folder, ".git/info/attributes"), []byte("*.txt export-ignore ident\n"), 0o644); err != nil {
			r.t.Fatal(err)
		}
	}},
	{"settings of the clone", root, "v1.0.0", func(r *repo) {
		r.commit(top("a.txt", "a\nb\n"), "v1.0.0").git("config", "core.autocrlf", "true")
		r.git("config", "tar.umask", "0077")
	}},
	{"packed tags", root, "v1.0.0", func(r *repo) { r.commit(top(), "v1.0.0").git("gc", "-q") }},
	{"a go.mod with all directives", root, "v1.0.0", func(r *repo) {
		r.commit(top("go.mod", "module "+root+"\n\ngo 1.17\n\nrequire (\n\texample.com/a v1.0.0\n\texample.com/b v1.0.0 // indirect\n)\n\n"+
			"replace example.com/a => ./a\n\nexclude example.com/b v1.1.0\n\nretract [v0.1.0, v0.2.0]\n"), "v1.0.0")
	}},
	{"a go.mod with quotation marks", root, "v1.0.0", func(r *repo) { r.commit(top("go.mod", "module \""+root+"\"\n"), "v1.0.0") }},
	{"a go.mod for newer go commands", root, "v1.0.0", func(r *repo) {
		r.commit(top("go.mod", "module "+root+"\n\ngo 1.17\n\ntool "+root+"/cmd\n\ngodebug default=go1.21\n"), "v1.0.0")
	}},
	{"no such tag", root, "v1.0.1", func(r *repo) { r.commit(top(), "v1.0.0") }},
	{"a build part in the tag", root, "v1.0.0+meta", func(r *repo) { r.commit(top(), "v1.0.0+meta") }},
}

// TestZipIsOfGo compares this program's versions with those that the go command fetches from the repository itself.
func TestZipIsOfGo(t *testing.T) {
	for _, it := range zipCases {
		it := it
		t.Run(it.name, func(t *testing.T) {
			t.Parallel()
			r := newRepo(t)
			it.make(r)
			want, got := direct(t, r, it.module, it.ref), published(t, r.folder, it.module, it.ref)
			if got != want || (want == "") != strings.HasPrefix(it.name, "no ") {
				t.Errorf("publish says\n%sand the go command\n%s", got, want)
			}
		})
	}
}

// TestOtherClones takes a version from other forms of a clone of one repository.
func TestOtherClones(t *testing.T) {
	r := newRepo(t).commit(top("a/y.go", "package a\n"), "v1.0.0")
	want := direct(t, r, root, "v1.0.0")
	forms := map[string][]string{
		"bare": {"clone", "-q", "--bare"}, "shared": {"clone", "-q", "--shared"}, "mirror": {"clone", "-q", "--mirror"},
		"shallow": {"clone", "-q", "--depth=1"}, "sparse": {"clone", "-q", "--sparse"}, "a work tree": {"worktree", "add", "-q"},
	}
	for name, words := range forms {
		folder := filepath.Join(t.TempDir(), name)
		switch from := "file://" + r.folder; name {
		case "a work tree":
			words = append(words, folder, "v1.0.0")
		case "shared":
			words = append(words, r.folder, folder)
		default:
			words = append(words, from, folder)
		}
		r.git(words...)
		if got := published(t, folder, root, "v1.0.0"); got != want || want == "" {
			t.Errorf("%s: publish says\n%sand the go command\n%s", name, got, want)
		}
	}
	if got := published(t, filepath.Join(r.folder, "a"), root, "v1.0.0"); got != want {
		t.Errorf("a folder of the clone: %s", got)
	}
}
