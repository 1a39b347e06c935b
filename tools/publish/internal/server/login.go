package server

import (
	"bytes"
	"encoding/base64"
	"errors"
	"fmt"
	"io"
	"net"
	"net/url"
	"os"
	"path/filepath"
	"regexp"
	"strings"
)

// shortestHidden is the length of a secret from which on it is taken out of texts. A shorter one may be any word.
const shortestHidden = 8

// A Login is what opens a server: a key, which stands in the path of each request, or a user with a password.
type Login struct{ Key, User, Password string }

var (
	oneKey   = regexp.MustCompile(`^[a-z0-9]{16,64}$`)
	keyInURL = regexp.MustCompile(`/k(/|$)|@`)
)

// Name returns the user as it may be shown: not where it has the form of a key, which may stand in the wrong place.
func (l Login) Name() string {
	if oneKey.MatchString(l.User) {
		return "..."
	}
	return l.User
}

// hidden returns a text of a server without this login, which a server that is no goshelf may repeat.
func (l Login) hidden(text []byte) []byte {
	header := base64.StdEncoding.EncodeToString([]byte(l.User + ":" + l.Password))
	for _, it := range []string{l.Key, l.Password, header} {
		if len(it) >= shortestHidden {
			text = bytes.ReplaceAll(text, []byte(it), []byte("..."))
		}
	}
	return text
}

// CheckURL refuses a URL that has a secret, that no server has, or that would show a login to whoever is on the way.
func CheckURL(option, text string) error {
	at, err := url.Parse(text)
	switch {
	case keyInURL.MatchString(text):
		return errors.New("a URL with a key or a password shows it to every user of this machine: use --key-file or --netrc")
	case err != nil || at.Scheme != "http" && at.Scheme != "https":
		return fmt.Errorf("%s is not a URL: it begins with http:// or https://", text)
	case at.Host == "" || at.RawQuery != "" || at.ForceQuery || at.Fragment != "":
		return fmt.Errorf("%s is not a URL that %s takes: it has a host, and no query", text, option)
	}
	return nil
}

// IsPlain says whether a URL sends what it is told over a network in clear, which may be that of a proxy: net/http asks
// none for an address of this machine, or for the name localhost as it is written here.
func IsPlain(text string) bool {
	at, err := url.Parse(text)
	if err != nil || at.Scheme == "https" {
		return false
	}
	return at.Hostname() != "localhost" && !net.ParseIP(at.Hostname()).IsLoopback()
}

// NetrcFile names the file of logins as the go command does, on a system of this name.
func NetrcFile(system string) string {
	if name := os.Getenv("NETRC"); name != "" {
		return name
	}
	home, _ := os.UserHomeDir()
	if system == "windows" {
		return filepath.Join(home, "_netrc")
	}
	return filepath.Join(home, ".netrc")
}

// KeyLogin reads the login of a file with a key; - is standard input.
func KeyLogin(name string, stdin io.Reader) (Login, error) {
	if name != "-" {
		file, err := os.Open(name)
		if err != nil { // (the name may be a key, and is not shown)
			return Login{}, errors.New("--key-file names no file that can be read: put the key into a file, and name it")
		}
		defer file.Close()
		stdin = file
	}
	text, err := io.ReadAll(io.LimitReader(stdin, 4096))
	key := strings.TrimSpace(strings.TrimPrefix(string(text), "\ufeff")) // (editors of Windows begin a file so)
	if err != nil || !oneKey.MatchString(key) {
		return Login{}, errors.New("the file of the key does not hold one key: a key is 16 to 64 characters of a-z and 0-9")
	}
	return Login{Key: key}, nil
}

// NetrcLogin reads the login that a file has for the host of a URL. One that is not there is refused by the server.
func NetrcLogin(name, to string) (Login, error) {
	text, err := os.ReadFile(name)
	if err != nil {
		return Login{}, fmt.Errorf("%s cannot be read: make it, with a line for the host of %s", name, to)
	}
	return loginFor(netrcWords(string(text)), Host(to)), nil
}

// Host returns the name of the host of a URL, as a .netrc has it, or "" where a text is no URL.
func Host(text string) string {
	at, err := url.Parse(text)
	if err != nil {
		return ""
	}
	return at.Hostname()
}

// netrcWords returns the words of a .netrc, without comments and macros, as the go command reads it.
func netrcWords(text string) (words []string) {
	inMacro := false
	for _, line := range strings.Split(text, "\n") {
		fields := strings.Fields(line)
		switch {
		case len(fields) == 0:
			inMacro = false
		case fields[0] == "macdef":
			inMacro = true
		case !inMacro && !strings.HasPrefix(fields[0], "#"):
			words = append(words, fields...)
		}
	}
	return words
}

// loginFor returns the first login for a host, or that of `default`, or none.
func loginFor(words []string, host string) (found Login) {
	for isOurs := false; len(words) > 0; {
		word, value := words[0], ""
		if words = words[1:]; word != "default" && len(words) > 0 {
			value, words = words[0], words[1:]
		}
		switch {
		case word == "machine" || word == "default":
			if isOurs {
				return found
			}
			isOurs = word == "default" || value == host
		case isOurs && word == "login":
			found.User = value
		case isOurs && word == "password":
			found.Password = value
		}
	}
	return found
}
