package release

import (
	"context"
	"fmt"
	"path"
	"strings"

	"example.com/goshelf-publish/internal/names"
)

// A place is what the go command is asked for, the folder in which the module lies, and in a clone the commit and the
// folder of the go.mod, which may be a folder of a major version in the other.
type place struct{ query, folder, commit, at string }

// A search is for what a REF means for a module.
type search struct {
	*clone
	module, ref string
	query       string // the version, if REF is one or a tag
	only        string // the folder of the tag, if REF names it
	fixed       string // the commit, if REF is no tag
	seen        string // the last commit that was looked at
	at          string // the folder of the go.mod there
}

// find returns what REF means for a module in the clone.
func (c *clone) find(ctx context.Context, module, ref string) (place, error) {
	it := search{clone: c, module: module, ref: ref, query: path.Base("/" + ref)}
	if err := it.read(ctx); err != nil {
		return place{}, err
	}
	for _, folder := range names.Folders(module) {
		if it.isIn(ctx, folder) {
			return place{it.query, folder, it.seen, it.at}, c.name(ctx, it.fixed)
		}
	}
	return place{}, it.refusal(ctx)
}

// read reads the REF: a pseudo-version, a tag with its folder, a version, or the name of a commit.
func (s *search) read(ctx context.Context) error {
	name := names.Revision(s.ref)
	if name == "" {
		isNested := s.query != s.ref
		isTag := func() bool { return s.commit(ctx, "refs/tags/"+s.ref) != "" }
		switch {
		case isNested && names.IsVersion(s.query) && isTag():
			s.only = strings.TrimSuffix(s.ref, "/"+s.query)
			return nil
		case !isNested && names.IsVersion(s.query):
			return nil
		case names.IsShort(s.query) && isTag():
			return notVersion(s.ref)
		}
		name = s.ref
	}
	if s.fixed = s.commit(ctx, name); s.fixed == "" {
		return fmt.Errorf("%s has no tag, branch or commit %s: check the name, or fetch it by git fetch --tags",
			s.folder, s.ref)
	}
	if name == s.ref {
		s.query = s.fixed
	}
	return nil
}

func notVersion(ref string) error {
	return fmt.Errorf("%s is not a version: name the tag vMAJOR.MINOR.PATCH", ref)
}

// isIn says whether the module lies in a folder at the commit that REF means there.
func (s *search) isIn(ctx context.Context, folder string) bool {
	if s.only != "" && s.only != folder {
		return false
	}
	at := s.fixed
	if at == "" {
		at = s.commit(ctx, "refs/tags/"+path.Join(folder, names.Plain(s.query)))
	}
	if at == "" {
		return false
	}
	s.seen = at
	_, ending := names.SplitMajor(s.module)
	for _, s.at = range []string{folder, path.Join(folder, ending)} {
		if s.moduleAt(ctx, at, path.Join(s.at, "go.mod")) == s.module {
			return true
		}
	}
	// (a repository from before modules: the go command makes the go.mod)
	return folder == "" && ending == "" && len(s.goMods(ctx, at)) == 0
}

// refusal says why no folder has the module.
func (s *search) refusal(ctx context.Context) error {
	switch {
	case s.seen == "" && s.only != "":
		return fmt.Errorf("the tag %s is of a module in %s, not of %s: name the module of the tag; "+
			"a folder v2 is no part of one", s.ref, s.only, s.module)
	case s.seen == "":
		return fmt.Errorf("%s has no tag %s for %s: make it by git tag, or fetch it by git fetch --tags",
			s.folder, s.query, s.module)
	}
	named := ""
	for at, name := range s.goMods(ctx, s.seen) {
		if at < 5 {
			named += fmt.Sprintf("; %s names %s", name, s.moduleAt(ctx, s.seen, name))
		}
	}
	return fmt.Errorf("no go.mod of %s names %s where the path ends with its folder, and capitals count%s",
		s.ref, s.module, named)
}
