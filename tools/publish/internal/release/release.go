package release

import (
	"context"
	"encoding/json"
	"fmt"
	"os"
	"sort"
	"strings"

	"example.com/goshelf-publish/internal/names"
)

// What goshelf takes, in bytes (docs/REFERENCE.md, Limits).
const (
	LargestGoMod = 1 << 20
	LargestZip   = 16 << 20
)

// Asked is what a user wants: a version of a module by a REF, or if there is none, a pseudo-version.
type Asked struct {
	Module, Ref string
	Pseudo      bool
}

// A Release is a version of a module as the go command made it: what `go mod download -json` says, and the bytes.
// After counts the commits of HEAD that a tag's version lacks.
type Release struct {
	Path, Version, Error string
	Info, GoMod, Zip     string
	Sum, GoModSum        string
	Time                 string `json:"-"`
	GoModBytes, ZipBytes []byte `json:"-"`
	After                int    `json:"-"`
}

// Lines returns the lines of go.sum, each after a text.
func (r *Release) Lines(front string) string {
	return fmt.Sprintf("%s%s %s %s\n%s%s %s/go.mod %s\n",
		front, r.Path, r.Version, r.Sum, front, r.Path, r.Version, r.GoModSum)
}

// make has the go command make the version.
func (t Tools) make(ctx context.Context, asked Asked, it place, settings []string) (*Release, error) {
	with := setting{"own", "direct", "cache", settings}
	told, err := t.goCommand(ctx, with, "mod", "download", "-json", asked.Module+"@"+it.query)
	made := new(Release)
	if wrong := json.Unmarshal(told, made); err != nil || wrong != nil {
		why := strings.Join(strings.Fields(made.Error), " ")
		if why == "" {
			why = fmt.Sprint(err)
		}
		return nil, fmt.Errorf("the go command makes no zip of %s at %s: %s", asked.Module, asked.Ref, why)
	}
	if err := made.read(); err != nil {
		return nil, err
	}
	return made, made.check(asked, it)
}

// read reads the files of a release.
func (r *Release) read() (err error) {
	if r.Time, err = timeOf(r.Info); err != nil {
		return err
	}
	if r.GoModBytes, err = os.ReadFile(r.GoMod); err != nil {
		return fmt.Errorf("the go command's go.mod: %w", err)
	}
	if r.ZipBytes, err = os.ReadFile(r.Zip); err != nil {
		return fmt.Errorf("the go command's zip: %w", err)
	}
	return nil
}

// timeOf returns the time that a .info has, or "".
func timeOf(name string) (string, error) {
	var about struct{ Time string }
	text, err := os.ReadFile(name)
	if err == nil {
		err = json.Unmarshal(text, &about)
	}
	if err != nil {
		return "", fmt.Errorf("the .info of a version: %w", err)
	}
	return about.Time, nil
}

// check says what is wrong with a release that the go command made.
func (r *Release) check(asked Asked, it place) error {
	isNamed := names.Plain(r.Version) == names.Plain(asked.Ref)
	switch named := names.Module(r.GoModBytes); {
	case named != asked.Module:
		return fmt.Errorf("the go.mod at %s names %s, not %s: publish it by that path; capitals count",
			asked.Ref, named, asked.Module)
	case names.IsVersion(it.query) && names.Plain(r.Version) != names.Plain(it.query):
		return fmt.Errorf("the go command takes %s for %s: name a tag of %s", asked.Ref, r.Version, asked.Module)
	case names.Revision(r.Version) != "" && !asked.Pseudo && !isNamed:
		tag := strings.TrimPrefix(it.folder+"/vMAJOR.MINOR.PATCH", "/")
		return fmt.Errorf("%s is not a version: make a tag %s and give that, or give --pseudo to publish %s",
			asked.Ref, tag, r.Version)
	case len(r.GoModBytes) > LargestGoMod:
		return fmt.Errorf("the go.mod has %d bytes, and goshelf takes %d: shorten it", len(r.GoModBytes), LargestGoMod)
	case len(r.ZipBytes) > LargestZip:
		return fmt.Errorf("the zip has %d bytes, and goshelf takes %d: move large files to a folder with a go.mod of its own",
			len(r.ZipBytes), LargestZip)
	}
	return nil
}

// Verify fetches the version from a folder, into a new cache, as a user would, and verifies it there. What it requires
// isn't fetched: it may be only on the shelf.
func (t Tools) Verify(ctx context.Context, made *Release) error {
	user := fmt.Sprintf("module goshelf.invalid/user\n\ngo 1.16\n\nrequire %s %s\n", made.Path, made.Version)
	required := names.Directive(made.GoModBytes, "require")
	sort.Strings(required)
	for at, path := range required {
		if at == 0 || path != required[at-1] {
			user += "replace " + path + " => ./none\n"
		}
	}
	files := map[string]string{"go.mod": user, "go.sum": made.Lines(""), "none/go.mod": "module goshelf.invalid/none\n"}
	for name, text := range files {
		if err := t.Write("user/"+name, []byte(text)); err != nil {
			return err
		}
	}
	with := setting{folder: "user", proxy: t.proxy("cache/cache/download"), cache: "user-cache"}
	for _, words := range [][]string{{"mod", "download", made.Path + "@" + made.Version}, {"mod", "verify"}} {
		if _, err := t.goCommand(ctx, with, words...); err != nil {
			return fmt.Errorf("go %s fails: %w", strings.Join(words, " "), err)
		}
	}
	return nil
}

// Differ refuses a version whose files are below the temporary folder `theirs` unless its sums and its time are those
// of this release.
func (t Tools) Differ(ctx context.Context, made *Release) error {
	with := setting{"their-own", t.proxy("theirs"), "their-cache", []string{"GOENV=off"}}
	told, _ := t.goCommand(ctx, with, "mod", "download", "-json", made.Path+"@"+made.Version)
	theirs := Release{Path: made.Path, Version: made.Version, Sum: "(the go command reads no such zip)"}
	if err := json.Unmarshal(told, &theirs); err != nil || theirs.GoModSum == "" {
		theirs.GoModSum = theirs.Sum
	}
	if theirs.Sum != made.Sum || theirs.GoModSum != made.GoModSum {
		return fmt.Errorf("%s %s is there with other bytes, which never change: publish a new version\n%s%s",
			made.Path, made.Version, theirs.Lines("there: "), strings.TrimSpace(made.Lines("here:  ")))
	}
	time, err := timeOf(t.at("theirs/" + names.Target(made.Path, made.Version) + ".info"))
	if err == nil && time == made.Time {
		return nil
	}
	if time = "the time " + time; err != nil || time == "the time " {
		time = "no time"
	}
	return fmt.Errorf("%s %s is there with the same sums and %s, not %s: leave it, it never changes",
		made.Path, made.Version, time, made.Time)
}
