package main

import (
	"errors"
	"io"
	"io/fs"
	"os"
	"path"
	"path/filepath"
	"sort"
	"strings"

	"example.com/goshelf-publish/internal/names"
)

// Files are the source of the versions of a folder.
type files struct{}

func (files) has(name string) bool {
	_, err := os.Stat(name)
	return err == nil
}

func (files) read(name string, most int64) ([]byte, error) {
	file, err := os.Open(name)
	if errors.Is(err, fs.ErrNotExist) {
		return nil, errNone
	}
	if err != nil {
		return nil, err
	}
	defer file.Close()
	return io.ReadAll(io.LimitReader(file, most+1))
}

// topOf returns the folder of the files: a module cache has them below cache/download.
func topOf(folder string) (string, error) {
	inner := filepath.Join(folder, "cache", "download")
	if about, err := os.Stat(inner); err == nil && about.IsDir() {
		folder = inner
	}
	return filepath.Abs(folder)
}

// inFolder calls a function for each version below a folder that has a file of its own, in order, and another for each
// folder that cannot be read.
func inFolder(top string, each func(*version), bad func(name string, err error)) {
	filepath.WalkDir(top, func(at string, it fs.DirEntry, err error) error {
		if err != nil {
			bad(at, err)
			return fs.SkipDir
		}
		below, err := filepath.Rel(top, at)
		if err != nil || !it.IsDir() {
			return err
		}
		module, last := path.Split(filepath.ToSlash(below))
		module = strings.TrimSuffix(module, "/")
		if last == "@v" {
			for _, stem := range stems(at) {
				each(named(module, stem, at, stem+".mod", stem+".zip", stem+".info"))
			}
		} else if names.IsVersion(names.Unescaped(last)) {
			one := named(module, last, at, "go.mod", "source.zip", last+".info")
			if one.has(one.gomod) || one.has(one.zip) {
				each(one)
			}
		}
		return nil
	})
}

// stems returns the versions that files of a folder are named after, in order.
func stems(folder string) (all []string) {
	entries, _ := os.ReadDir(folder) // (that it cannot be read is said of the walk)
	seen := map[string]bool{}
	for _, it := range entries {
		end := path.Ext(it.Name())
		stem := strings.TrimSuffix(it.Name(), end)
		if (end == ".mod" || end == ".zip") && !seen[stem] && names.IsVersion(names.Unescaped(stem)) {
			seen[stem], all = true, append(all, stem)
		}
	}
	sort.Strings(all)
	return all
}

// named returns a version by the names of its files in a folder.
func named(module, text, folder, gomod, zip, info string) *version {
	return &version{path: names.Unescaped(module), version: names.Unescaped(text), gomod: filepath.Join(folder, gomod),
		zip: filepath.Join(folder, zip), info: filepath.Join(folder, info), source: files{}}
}

// isBelow says whether a module is one of these paths, or below one. Each is below none.
func isBelow(module string, paths []string) bool {
	for _, it := range paths {
		it = strings.Trim(it, "/")
		if module == it || strings.HasPrefix(module, it+"/") {
			return true
		}
	}
	return len(paths) == 0
}
