package release

import (
	"context"
	"fmt"
	"path"
	"path/filepath"
	"strconv"
	"strings"

	"example.com/goshelf-publish/internal/names"
)

// A clone is a git repository from which a version is taken. The go command reads a copy of its heads and tags.
type clone struct {
	Tools
	folder, copy string
	hasTree      bool // a working tree, so HEAD is what a developer sees
}

const unreadable = "%s is not a git repository that can be read: name the one of the module by --repository (%w)"

// told returns what git says in the clone, or "" if it fails.
func (c *clone) told(ctx context.Context, words ...string) string {
	text, err := c.git(ctx, c.folder, words...)
	if err != nil {
		return ""
	}
	return string(text)
}

// take makes the copy, which the go command may read whoever owns the clone.
func (c *clone) take(ctx context.Context) error {
	about, err := c.git(ctx, c.folder, "rev-parse", "--is-inside-work-tree", "--git-common-dir")
	if err != nil {
		return fmt.Errorf(unreadable, c.folder, err)
	}
	inside, from, _ := strings.Cut(strings.TrimSpace(string(about)), "\n")
	c.hasTree = strings.TrimSpace(inside) == "true"
	if err := c.changes(ctx); c.hasTree && err != nil {
		return err
	}
	if c.isPartial(ctx) {
		return fmt.Errorf("%s is a partial clone, which lacks files of its commits: clone it without --filter", c.folder)
	}
	if from = filepath.FromSlash(strings.TrimSpace(from)); !filepath.IsAbs(from) {
		from = filepath.Join(c.folder, from)
	}
	if from, err = filepath.Abs(from); err != nil {
		return fmt.Errorf(unreadable, c.folder, err)
	}
	words := strings.Fields("git -c protocol.file.allow=always clone -q --bare --shared --")
	words = append(words, from, c.copy+".git")
	if _, err := c.output(ctx, command{words: words, settings: []string{"GIT_ALLOW_PROTOCOL=file"}}); err != nil {
		return fmt.Errorf("%s cannot be cloned: %w", c.folder, err)
	}
	return nil
}

// changes refuses files that are not as the commit has them, and names the first. New ones may be there by mistake.
func (c *clone) changes(ctx context.Context) error {
	var changed, untracked []string
	for _, line := range strings.Split(c.told(ctx, "--no-optional-locks", "status", "--porcelain"), "\n") {
		switch {
		case len(line) <= 3:
		case strings.HasPrefix(line, "??"):
			untracked = append(untracked, line[3:])
		default:
			changed = append(changed, line[3:])
		}
	}
	const most = 3
	for _, it := range []struct {
		names []string
		do    string
	}{{changed, "commit or stash them"}, {untracked, "commit, ignore or remove them"}} {
		if len(it.names) > most {
			it.names = it.names[:most]
		}
		if it.names != nil {
			return fmt.Errorf("%s has changes that no commit has, and a version holds commits: %s (%s)",
				c.folder, it.do, strings.Join(it.names, " "))
		}
	}
	return nil
}

// isPartial says whether files of the commits are missing, which the copy could not fetch.
func (c *clone) isPartial(ctx context.Context) bool {
	return c.told(ctx, "config", "--get-regexp", `^remote\..*\.promisor$`) != "" &&
		strings.Contains("\n"+c.told(ctx, "rev-list", "--objects", "--all", "--missing=print", "HEAD"), "\n?")
}

// commit returns that of a name, or "".
func (c *clone) commit(ctx context.Context, name string) string {
	return strings.TrimSpace(c.told(ctx, "rev-parse", "-q", "--verify", name+"^{commit}"))
}

// moduleAt returns the path that a go.mod of a commit names, or "".
func (c *clone) moduleAt(ctx context.Context, commit, name string) string {
	return names.Module([]byte(c.told(ctx, "cat-file", "blob", commit+":"+name)))
}

// goMods returns the names of the go.mods of a commit.
func (c *clone) goMods(ctx context.Context, commit string) (names []string) {
	files := c.told(ctx, "ls-tree", "-r", "-z", "--full-tree", "--name-only", commit)
	for _, name := range strings.Split(files, "\x00") {
		if path.Base(name) == "go.mod" {
			names = append(names, name)
		}
	}
	return names
}

// after counts the commits of HEAD that a commit before it lacks and that change the module in a folder. A folder with
// a go.mod of its own, at both, is of another module.
func (c *clone) after(ctx context.Context, commit, folder string) (count int) {
	if !c.hasTree || commit == "" || strings.TrimSpace(c.told(ctx, "merge-base", commit, "HEAD")) != commit {
		return 0
	}
	words := []string{"rev-list", "--count", commit + "..HEAD", "--", ":(top,literal)" + folder}
	own, isThere := path.Join(folder, "go.mod"), map[string]bool{}
	for _, name := range c.goMods(ctx, commit) {
		isThere[name] = name != own && strings.HasPrefix(name, strings.TrimSuffix(own, "go.mod"))
	}
	for _, name := range c.goMods(ctx, "HEAD") {
		if isThere[name] {
			words = append(words, ":(top,exclude,literal)"+path.Dir(name))
		}
	}
	count, _ = strconv.Atoi(strings.TrimSpace(c.told(ctx, words...)))
	return count
}

// name gives a commit that no tag names a branch in the copy. The go command finds it there, and needs the commits
// before it.
func (c *clone) name(ctx context.Context, commit string) error {
	if commit == "" {
		return nil
	}
	if strings.TrimSpace(c.told(ctx, "rev-parse", "--is-shallow-repository")) != "false" {
		return fmt.Errorf("%s is a shallow clone, and the version of a commit depends on the tags before it: "+
			"git fetch --unshallow --tags", c.folder)
	}
	if _, err := c.git(ctx, c.copy+".git", "update-ref", "refs/heads/goshelf-publish", commit); err != nil {
		return fmt.Errorf("the copy of %s takes no branch: %w", c.folder, err)
	}
	return nil
}
