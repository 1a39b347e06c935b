package release

import (
	"reflect"
	"testing"
)

// TestFileURL has folders of each system: a drive, a share of a server, spaces, and what ends a URL.
func TestFileURL(t *testing.T) {
	for path, want := range map[string]string{
		"/tmp/a b": "file:///tmp/a%20b", "C:/Users/Me/a,b": "file:///C:/Users/Me/a%2Cb", "/a#b?c%d": "file:///a%23b%3Fc%25d",
		"//files/home/a b": "file://files/home/a%20b",
	} {
		if got := fileURL(path); got != want {
			t.Errorf("%s: %s", path, got)
		}
	}
}

// TestEnvironment has no child see a key or a password, nor what a hook of git sets. A user of Windows keeps the home.
func TestEnvironment(t *testing.T) {
	it := Tools{Work: "/work", Secrets: []string{"alphakey00000001", "", "short"}}
	own := []string{"KEY=alphakey00000001", "URL=https://x/k/alphakey00000001/y", "A=short", "B=shorter", "GIT_DIR=/x", "Path=/bin",
		"EMPTY=", "Git_Index_File=x", "HOME="}
	want := []string{"B=shorter", "Path=/bin", "EMPTY=", "HOME=", "HOME=/work", "LC_ALL=C"}
	if got := it.environment(own, "linux"); !reflect.DeepEqual(got, want) {
		t.Errorf("%q", got)
	}
	own, want = []string{`USERPROFILE=C:\Users\Me`}, []string{`USERPROFILE=C:\Users\Me`, "LC_ALL=C"}
	if got := it.environment(own, "windows"); !reflect.DeepEqual(got, want) {
		t.Errorf("%q", got)
	}
}
