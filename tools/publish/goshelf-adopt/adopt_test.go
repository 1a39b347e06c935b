package main

import (
	"os"
	"path/filepath"
	"reflect"
	"strings"
	"testing"
)

// held is a source of files.
type held map[string]string

func (h held) has(name string) bool { return h[name] != "" }

func (h held) read(name string, most int64) ([]byte, error) {
	if !h.has(name) {
		return nil, errNone
	}
	return []byte(h[name]), nil
}

func TestTime(t *testing.T) {
	for info, want := range map[string]string{
		`{"Time":"2024-01-31T12:00:00Z"}`: "2024-01-31T12:00:00Z", `{"Time":"2024-01-31T14:00:00.5+02:00"}`: "2024-01-31T12:00:00Z",
		`{"Time":"2024-01-31T12:00:00.123456789Z"}`: "2024-01-31T12:00:00Z", `{"Time":""}`: "", `{}`: "", "": "",
		`{"Time":"0001-01-01T00:00:00Z"}`: "",
	} {
		it := version{version: "v1.0.0", info: "i", source: held{"i": info}}
		if got, err := it.time(); got != want || err != nil {
			t.Errorf("%s: %q, %v", info, got, err)
		}
		it.version = "v0.0.0-20240131120000-abcdefabcdef"
		if got, err := it.time(); got != "" || err != nil {
			t.Errorf("%s of a pseudo-version: %q, %v", info, got, err)
		}
	}
	for _, info := range []string{"rubbish", `{"Time":"yesterday"}`, `{"Time":5}`} {
		it := version{version: "v1.0.0", info: "i", source: held{"i": info}}
		if got, err := it.time(); err == nil {
			t.Errorf("%s: %q", info, got)
		}
	}
}

func TestLimited(t *testing.T) {
	it := version{source: held{"a": "four"}}
	for most, want := range map[int64]string{3: "a has more than 3 bytes", 4: ""} {
		if _, err := it.limited("a", most); (err == nil) != (want == "") || err != nil && !strings.Contains(err.Error(), want) {
			t.Errorf("%d: %v", most, err)
		}
	}
	if _, err := it.limited("b", 4); err == nil || err.Error() != "there is no b" {
		t.Error(err)
	}
}

// TestFolder reads the folder of a proxy and that of an Athens, whose names have capitals. What is no version is no
// matter.
func TestFolder(t *testing.T) {
	top := t.TempDir()
	for _, name := range []string{"a.com/!b/@v/v1.0.0.mod", "a.com/!b/@v/v1.0.0.zip", "a.com/!b/@v/v1.0.0-!r!c.1.zip", "a.com/!b/@v/list",
		"a.com/!b/@v/v1.0.0.info", "a.com/!b/@v/v1.zip",
		"a.com/!b/@v/v1.0.0-!r!c.1.zip", "a.com/!b/@v/v1.0.0-!r!c.1.n.mod", "a.com/!b/@v/v1.0.0-!r!c.1.n.zip", "a.com/!b/@v/v1.0.0-!r!c.1.mod",
		"a.com/C/v2.0.0+incompatible/source.zip", "a.com/C/v1.0.0/other"} {
		file := filepath.Join(top, filepath.FromSlash(name))
		if err := os.MkdirAll(filepath.Dir(file), 0o755); err != nil {
			t.Fatal(err)
		}
		if err := os.WriteFile(file, []byte("x"), 0o644); err != nil {
			t.Fatal(err)
		}
	}
	var found []string
	inFolder(top, func(it *version) { found = append(found, it.path+" "+it.version) }, func(name string, err error) { t.Error(name, err) })
	want := []string{"a.com/B v1.0.0", "a.com/B v1.0.0-RC.1", "a.com/B v1.0.0-RC.1.n", "a.com/C v2.0.0+incompatible"}
	if !reflect.DeepEqual(found, want) {
		t.Errorf("%q", found)
	}
	for path, is := range map[string]bool{"a.com/b": true, "a.com/b/c": true, "a.com/bc": false, "a.com": false} {
		if isBelow(path, []string{"/a.com/b/"}) != is {
			t.Errorf("%s: %v", path, !is)
		}
	}
}
