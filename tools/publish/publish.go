package main

import (
	"context"
	"crypto/sha256"
	"errors"
	"fmt"
	"path"
	"strings"

	"example.com/goshelf-publish/internal/answers"
	"example.com/goshelf-publish/internal/names"
	"example.com/goshelf-publish/internal/release"
	"example.com/goshelf-publish/internal/server"
)

// publish makes the zip, and then publishes or checks it.
func (p *publisher) publish(ctx context.Context) error {
	made, err := p.made(ctx)
	if err != nil {
		return err
	}
	if !p.check {
		return p.send(ctx, made)
	}
	found := "not checked without --to: a key, and whether the version is there"
	if p.server != nil {
		found, err = p.checkThere(ctx, made)
	} else {
		err = answers.GoMod(made.GoModBytes)
	}
	if err != nil {
		return err
	}
	if err := p.Verify(ctx, made); err != nil {
		return err
	}
	p.say(found)
	p.tell("checked", made)
	return nil
}

// made has the go command make the version: from the clone, if one is named, otherwise from the host of the path.
func (p *publisher) made(ctx context.Context) (*release.Release, error) {
	if p.repository != "" {
		return p.FromClone(ctx, p.repository, p.Asked)
	}
	if p.IsHere(ctx, p.Module) {
		p.say("takes " + p.Module + " from its host: give --repository . to take it from the clone that you are in")
	}
	return p.FromHost(ctx, p.Asked)
}

// send publishes a version, and ends as the server's answer says.
func (p *publisher) send(ctx context.Context, made *release.Release) error {
	target := names.Target(p.Module, made.Version)
	asked := server.Put(target, made.Time, made.GoModBytes, made.ZipBytes, server.MaybePublished)
	got, err := p.server.Ask(ctx, asked)
	if err != nil {
		return err
	}
	switch answer := fmt.Sprint(got.Status, " ", answers.Line(got)); answer {
	case "200 already published", "201 published":
		p.tell(answers.Line(got), made)
	case "409 conflict":
		if err := p.compare(ctx, made); err != nil {
			return err
		}
		p.say("the zip there has other bytes, but the same files and sums")
		p.tell("already published", made)
	default:
		return p.refusal(got, made, asked)
	}
	return nil
}

// refusal says what an answer against a request means.
func (p *publisher) refusal(got server.Reply, made *release.Release, asked server.Request) error {
	return answers.Refusal(got, answers.Ask{To: p.To, Netrc: p.Netrc, User: p.server.Name(), Module: p.Module,
		Version: made.Version, Time: made.Time, GoMod: made.GoModBytes, Sent: len(asked.Body)})
}

// compare fetches what is there, and refuses unless its sums and its time are the same.
func (p *publisher) compare(ctx context.Context, made *release.Release) error {
	file := names.Target(p.Module, made.Version)
	for _, kind := range []string{".info", ".mod", ".zip"} {
		got, err := p.server.Ask(ctx, server.Get(file+kind))
		if err != nil {
			return err
		}
		if got.Status != 200 {
			return fmt.Errorf("%s %s is there with another go.mod, zip or time, and %s answers %d to a GET of it: "+
				"publish a new version", p.Module, made.Version, p.To, got.Status)
		}
		if err := p.Write("theirs/"+file+kind, got.Body); err != nil {
			return err
		}
	}
	return p.Differ(ctx, made)
}

// checkThere has the server check a publish and store nothing, and says whether the version is there.
func (p *publisher) checkThere(ctx context.Context, made *release.Release) (string, error) {
	file := names.Target(p.Module, made.Version)
	if err := p.checkPublish(ctx, file, made); err != nil {
		return "", err
	}
	got, err := p.server.Ask(ctx, server.Get(file+".info"))
	if err != nil {
		return "", err
	}
	switch got.Status {
	case 200:
		return fmt.Sprintf("%s has %s %s already, with the same files, sums and time", p.To, p.Module, made.Version),
			p.compare(ctx, made)
	case 404:
		return fmt.Sprintf("%s accepts the go.mod and the key, and has no %s %s yet", p.To, p.Module, made.Version), nil
	}
	return "", p.refusal(got, made, server.Request{})
}

// checkPublish makes two publishes that are always refused. The first has no go.mod, which is never valid, and an
// invalid time, which goshelf refuses before that. The second has this go.mod and zip, so a server in front meets their
// size, under a path that ends in the hash of the go.mod, so the go.mod cannot name that path.
func (p *publisher) checkPublish(ctx context.Context, file string, made *release.Release) error {
	asked := server.Put(file, "none", nil, nil, server.NothingDone)
	got, err := p.server.Ask(ctx, asked)
	if err != nil {
		return err
	}
	switch fmt.Sprint(got.Status, " ", answers.Line(got)) {
	case "422 bad-time":
	case "422 bad-gomod 0":
		return errors.New("the header Version-Time did not arrive: let the server in front of goshelf pass it on")
	default:
		return p.refusal(got, made, asked)
	}
	file = names.Target(otherPath(p.Module, made.GoModBytes), "v1.0.0")
	asked = server.Put(file, made.Time, made.GoModBytes, made.ZipBytes, server.NothingDone)
	if got, err = p.server.Ask(ctx, asked); err != nil {
		return err
	}
	if got.Status != 422 || answers.Line(got) != "module-path" {
		return p.refusal(got, made, asked)
	}
	return nil
}

// otherPath returns a path below a module, because a server in front may know who publishes what. No path has more than
// 255 bytes.
func otherPath(module string, gomod []byte) string {
	other := module
	if len(other) > 200 {
		other = path.Dir(other[:200])
	}
	hash := sha256.Sum256(gomod)
	other += fmt.Sprintf("/check-%x", hash[:20])
	if strings.HasPrefix(other, "gopkg.in/") {
		other += ".v1"
	}
	return other
}
