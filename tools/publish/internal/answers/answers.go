// Package answers says what the answers of goshelf, and of what stands in front of it, mean to who publishes.
package answers

import (
	"errors"
	"fmt"
	"strconv"
	"strings"
	"unicode"

	"example.com/goshelf-publish/internal/gomod"
	"example.com/goshelf-publish/internal/server"
)

// An Ask is what a request was about. Netrc is the file of the login, if there is one, and User what it has for the
// host, or "".
type Ask struct {
	To, Netrc, User, Module, Version, Time string
	GoMod                                  []byte
	Sent                                   int
}

// fronts returns what the names of meanings may begin with, the first of them first.
func (a Ask) fronts() []string {
	switch {
	case a.Netrc == "":
		return []string{""}
	case a.User == "":
		return []string{"no line ", "netrc ", ""}
	}
	return []string{"netrc ", ""}
}

// meanings says what an answer against a publish means, and what to do: by the status and the body of goshelf, by the
// status alone, and by its first digit. With `netrc` in front it is that of a user, and with `no line` that of one whom
// the file does not name. What stands in {} differs.
var meanings = map[string]string{
	"400 bad mod-length":  "the header Mod-Length did not arrive: let the server in front of goshelf pass it on",
	"403 forbidden":       "the key only reads: use a key that was added without --read-only",
	"netrc 403 forbidden": "{netrc} logs in as a user who only reads: ask the operator of {to} for the right to publish",
	"403 not your path": "{to} does not let you publish {module}: publish a path of your own, " +
		"or ask the operator for this one",
	"403 taken out": "{module} {version} was taken out of {to} and never comes back: publish the next version",
	"404 not found": "{to} has no such key, or takes no such path or version: check the key and the URL, " +
		"then {module} {version}",
	"netrc 404 not found": "{to} takes no such path or version, or has lost the key of your user: " +
		"check {module} {version}, then ask the operator",
	"404 the key does not go into the URL, but into ~/.netrc, as the password": "{to} takes the key from ~/.netrc: " +
		"give --netrc in place of --key-file, and a line there with the host, your name and the key as the password",
	"422 major-mismatch": "{version} does not fit the path {module}: version 2 and higher need a path that ends in /v2 " +
		"and so on",
	"422 bad-time":      "the time {time} does not fit {version}: check the clock of whoever made the commit",
	"422 time-mismatch": "the time {time} does not fit {version}: check the clock of whoever made the commit",
	"422 module-path":   "the go.mod does not name {module}: publish it by the path that it names",
	"422 incompatible-gomod": "{version} is +incompatible, which only a go.mod with a module line alone can be: " +
		"name the module {module}/{major}",
	"503 unavailable": "the store met a fault and published nothing: run this again, and tell the operator if it stays",
	"507 full":        "the shelf has 4096 versions of {module} and takes no more: go on under a new path",
	"401":             "{to} wants a user: give --netrc, and a line of ~/.netrc with the host, the user and its password",
	"netrc 401": "{to} does not take the password of {user}: mend the line for {host} in {netrc}, " +
		"or ask the operator whether it still holds",
	"no line 401": "{netrc} has no line with a login for {host}: add one, with the name and the key from the operator",
	"413":         "{to} takes no body of {sent} bytes: raise client_max_body_size of the server in front",
	"429":         "{to} gets too many requests at once: run this again in a minute",
	"3":           "{to} leads to another URL: give that to --to",
	"5": "{to} answers {status}: goshelf behind it is down or busy, so run this again in a minute, " +
		"and if it stays, tell the operator",
	"": "{to} answers {status} and is no goshelf: check the URL ({body})",
}

// Refusal says what an answer against a request means.
func Refusal(got server.Reply, asked Ask) error {
	status, body := strconv.Itoa(got.Status), Line(got)
	if line := strings.TrimPrefix(body, "bad-gomod "); got.Status == 422 && line != body {
		if number, err := strconv.ParseUint(line, 10, 31); err == nil {
			return badLine(asked.GoMod, int(number))
		}
	}
	major, _, _ := strings.Cut(asked.Version, ".")
	words := strings.NewReplacer("{to}", asked.To, "{host}", server.Host(asked.To), "{netrc}", asked.Netrc,
		"{user}", printable(asked.User), "{module}", asked.Module, "{version}", asked.Version, "{major}", major,
		"{time}", asked.Time, "{status}", status, "{body}", body, "{sent}", strconv.Itoa(asked.Sent))
	for _, name := range []string{status + " " + body, status, status[:1], ""} {
		for _, front := range asked.fronts() {
			if text := meanings[front+name]; text != "" {
				return errors.New(words.Replace(text))
			}
		}
	}
	return nil // (not reached: the last name is in the table)
}

// GoMod refuses a go.mod that goshelf refuses, at the same line.
func GoMod(text []byte) error {
	if line := gomod.Fault(string(text)); line >= 0 {
		return badLine(text, line)
	}
	return nil
}

// badLine is the refusal of a line of a go.mod, which is 0 where no line is at fault.
func badLine(text []byte, line int) error {
	lines := strings.Split(string(text), "\n")
	if line < 1 || line > len(lines) {
		return errors.New("the go.mod has no module line, or is not UTF-8: mend it, and tag a new version")
	}
	return fmt.Errorf("line %d of the go.mod is not valid: mend it, and tag a new version (%s)",
		line, printable(lines[line-1]))
}

// Line returns the first line of a reply as it may be shown.
func Line(got server.Reply) string {
	line, _, _ := strings.Cut(string(got.Body), "\n")
	if len(line) > 100 {
		line = line[:100]
	}
	return printable(line)
}

// printable returns a text without what would change a terminal.
func printable(text string) string {
	return strings.Map(func(it rune) rune {
		if it > unicode.MaxASCII || !unicode.IsPrint(it) {
			return -1
		}
		return it
	}, text)
}
