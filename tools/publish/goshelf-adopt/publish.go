package main

import (
	"context"
	"encoding/csv"
	"errors"
	"fmt"
	"io"

	"example.com/goshelf-publish/internal/answers"
	"example.com/goshelf-publish/internal/names"
	"example.com/goshelf-publish/internal/server"
)

// A sink takes versions, and says of each what became of it.
type sink interface {
	// has says whether it needs a version no more.
	has(it *version) (bool, error)
	take(it *version, held contents) error
}

// A list prints a row for each version.
type list struct{ *csv.Writer }

// newList prints the header of a list.
func newList(stdout io.Writer) list {
	it := list{csv.NewWriter(stdout)}
	it.Write([]string{"path", "version", "time", "mod", "zip"})
	return it
}

func (list) has(*version) (bool, error) { return false, nil }

func (l list) take(it *version, held contents) error {
	l.Write([]string{it.path, it.version, held.time, it.gomod, it.zip})
	l.Flush()
	return l.Error()
}

// A shelf is goshelf, to which versions are published.
type shelf struct {
	*server.Server
	ctx    context.Context
	netrc  string
	stdout io.Writer
}

// errStop is a refusal that every other version would get too.
type errStop struct{ error }

// check asks whether goshelf knows the login.
func (s *shelf) check() error {
	got, err := s.Ask(s.ctx, server.Get("-/modules"))
	switch {
	case err != nil || got.Status == 200:
		return err
	case got.Status != 404 || answers.Line(got) != "not found":
		return s.refusal(got, &version{}, contents{})
	case s.netrc != "":
		return fmt.Errorf("%s has lost the key of your user: ask the operator", s.URL)
	}
	return fmt.Errorf("%s has no such key: check the key and the URL", s.URL)
}

// has asks goshelf for the .info of a version.
func (s *shelf) has(it *version) (bool, error) {
	got, err := s.Ask(s.ctx, server.Get(names.Target(it.path, it.version)+".info"))
	switch {
	case err != nil:
		return false, errStop{err}
	case got.Status == 200 || got.Status == 404 && answers.Line(got) == "not found":
		return got.Status == 200, nil
	}
	return false, errStop{s.refusal(got, it, contents{})}
}

// take publishes a version.
func (s *shelf) take(it *version, held contents) error {
	asked := server.Put(names.Target(it.path, it.version), held.time, held.gomod, held.zip, server.MaybePublished)
	got, err := s.Ask(s.ctx, asked)
	if err != nil {
		return errStop{err}
	}
	word := answers.Line(got)
	switch fmt.Sprint(got.Status, " ", word) {
	case "200 already published", "201 published":
		fmt.Fprintln(s.stdout, word, it.path, it.version)
		return nil
	case "409 conflict":
		return errors.New("it is there with another go.mod, zip or time, which never change")
	}
	err = s.refusal(got, it, held)
	if got.Status == 401 || got.Status == 429 || word == "forbidden" || got.Status >= 500 && got.Status != 507 {
		return errStop{err}
	}
	return err
}

func (s *shelf) refusal(got server.Reply, it *version, held contents) error {
	return answers.Refusal(got, answers.Ask{To: s.URL, Netrc: s.netrc, User: s.Name(), Module: it.path,
		Version: it.version, Time: held.time, GoMod: held.gomod, Sent: len(held.gomod) + len(held.zip)})
}
