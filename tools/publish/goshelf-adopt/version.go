package main

import (
	"archive/zip"
	"bytes"
	"encoding/json"
	"errors"
	"fmt"
	"strings"
	"time"

	"example.com/goshelf-publish/internal/names"
	"example.com/goshelf-publish/internal/release"
)

// A version is what somebody has of one, by the names of its files: in a folder, or in a GOPROXY.
type version struct {
	path, version    string
	gomod, zip, info string
	source
}

// A source has files by their names.
type source interface {
	// has says whether a file is there, as far as that shows before it is read.
	has(name string) bool
	// read reads at most a byte more than a number. It returns errNone where no file is.
	read(name string, most int64) ([]byte, error)
}

// errNone is what a source says of a file that is not there.
var errNone = errors.New("there is none")

// largestInfo is more than a .info, a list or an @latest has.
const largestInfo = 1 << 24

// Contents are the files of a version, and its time, or "" where it needs none or has none.
type contents struct {
	gomod, zip []byte
	time       string
}

// load reads a version, and refuses one that the go command or goshelf would refuse.
func (v *version) load() (it contents, err error) {
	if it.gomod, err = v.limited(v.gomod, release.LargestGoMod); err != nil {
		return it, err
	}
	if it.zip, err = v.limited(v.zip, release.LargestZip); err != nil {
		return it, err
	}
	if err := v.checkZip(it.zip); err != nil {
		return it, err
	}
	it.time, err = v.time()
	return it, err
}

// limited reads a file of at most so many bytes.
func (v *version) limited(name string, most int64) ([]byte, error) {
	content, err := v.read(name, most)
	switch {
	case err == errNone:
		return nil, fmt.Errorf("there is no %s", name)
	case err != nil:
		return nil, fmt.Errorf("its files cannot be read: %w", err)
	case int64(len(content)) > most:
		return nil, fmt.Errorf("%s has more than %d bytes, which goshelf does not take", name, most)
	}
	return content, nil
}

// checkZip refuses a zip with entries that are no files of the version.
func (v *version) checkZip(content []byte) error {
	held, err := zip.NewReader(bytes.NewReader(content), int64(len(content)))
	if err != nil {
		return fmt.Errorf("%s cannot be read: %w", v.zip, err)
	}
	front := v.path + "@" + v.version + "/"
	for _, it := range held.File {
		if !strings.HasPrefix(it.Name, front) || strings.HasSuffix(it.Name, "/") {
			return fmt.Errorf("%s has an entry %q, which is no file below %s", v.zip, it.Name, front)
		}
	}
	return nil
}

// time returns the time of the .info as goshelf takes it; "" where there is none, and for a pseudo-version, whose name
// has it.
func (v *version) time() (string, error) {
	if names.Revision(v.version) != "" {
		return "", nil
	}
	text, err := v.read(v.info, largestInfo)
	if err == errNone {
		return "", nil
	}
	var about struct{ Time string }
	if err == nil {
		err = json.Unmarshal(text, &about)
	}
	// (the go command writes the zero time where a proxy gave none)
	if err == nil && (about.Time == "" || strings.HasPrefix(about.Time, "0001-")) {
		return "", nil
	}
	when, wrong := time.Parse(time.RFC3339, about.Time)
	if err == nil {
		err = wrong
	}
	if err != nil {
		return "", fmt.Errorf("%s cannot be read: %w", v.info, err)
	}
	return when.UTC().Format("2006-01-02T15:04:05Z"), nil
}
