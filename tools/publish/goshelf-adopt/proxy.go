package main

import (
	"context"
	"encoding/json"
	"fmt"
	"sort"
	"strings"

	"example.com/goshelf-publish/internal/answers"
	"example.com/goshelf-publish/internal/names"
	"example.com/goshelf-publish/internal/server"
)

// A proxy is the source of the versions of a GOPROXY. It keeps nothing.
type proxy struct {
	*server.Server
	ctx   context.Context
	netrc string
}

func (p *proxy) has(string) bool { return true }

// read fetches a file.
func (p *proxy) read(name string, _ int64) ([]byte, error) {
	got, err := p.Ask(p.ctx, server.Get(name))
	switch {
	case err != nil:
		return nil, errStop{err}
	case got.Status == 401:
		return nil, errStop{answers.Refusal(got, answers.Ask{To: p.URL, Netrc: p.netrc, User: p.Name()})}
	case got.Status == 404 || got.Status == 410:
		return nil, errNone
	case got.Status != 200:
		return nil, fmt.Errorf("%s answers %d (%s)", p.URL, got.Status, answers.Line(got))
	}
	return got.Body, nil
}

// versions returns those of a module: the one that is named, or each of the list and the latest, which may be a
// pseudo-version that no list has.
func (p *proxy) versions(word string) (all []*version, err error) {
	module, one, _ := strings.Cut(word, "@")
	if !names.IsPath(module) || one != "" && !names.IsVersion(one) {
		return nil, fmt.Errorf("%s is not a module path, perhaps with @ and a version", word)
	}
	found := map[string]bool{one: one != ""}
	if one == "" {
		if found, err = p.listed(module); err != nil {
			return nil, err
		}
	}
	for it := range found {
		if names.IsVersion(it) {
			file := names.Target(module, it)
			all = append(all, &version{path: module, version: it, gomod: file + ".mod", zip: file + ".zip",
				info: file + ".info", source: p})
		}
	}
	if len(all) == 0 {
		return nil, fmt.Errorf("%s has no version of %s", p.URL, module)
	}
	sort.Slice(all, func(one, two int) bool { return all[one].version < all[two].version })
	return all, nil
}

// listed returns the versions that a GOPROXY lists of a module, and the latest.
func (p *proxy) listed(module string) (map[string]bool, error) {
	found := map[string]bool{}
	text, err := p.read(names.Escaped(module)+"/@v/list", largestInfo)
	if err != nil && err != errNone {
		return nil, err
	}
	for _, line := range strings.Split(string(text), "\n") {
		if fields := strings.Fields(line); len(fields) > 0 { // (a time may stand behind a version)
			found[fields[0]] = true
		}
	}
	var latest struct{ Version string }
	text, err = p.read(names.Escaped(module)+"/@latest", largestInfo)
	if err != nil && err != errNone {
		return nil, err
	}
	if json.Unmarshal(text, &latest) == nil {
		found[latest.Version] = true
	}
	return found, nil
}
