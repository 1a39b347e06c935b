package server

import (
	"os"
	"path/filepath"
	"strings"
	"testing"
)

const key = "alphakey00000001"

func TestNetrc(t *testing.T) {
	text := "# machine a login no password no\r\nmachine a login one\r\n\tpassword two account x\nmacdef m\n" +
		"machine b login no\n\nmachine b password four login three\nmachine a login again password again\n" +
		"default login d password e\n"
	name := filepath.Join(t.TempDir(), "netrc")
	if err := os.WriteFile(name, []byte(text), 0o600); err != nil {
		t.Fatal(err)
	}
	for host, want := range map[string]Login{"a": {User: "one", Password: "two"}, "b": {User: "three", Password: "four"},
		"c": {User: "d", Password: "e"}} {
		if got, err := NetrcLogin(name, "https://"+host+":8443/x"); got != want || err != nil {
			t.Errorf("%s: %+v, %v", host, got, err)
		}
	}
	for user, want := range map[string]string{"ann": "ann", key: "...", "": ""} {
		if got := (Login{User: user}).Name(); got != want {
			t.Errorf("%s: %s", user, got)
		}
	}
	if got := loginFor(netrcWords("machine a login"), "b"); got != (Login{}) {
		t.Errorf("%+v", got)
	}
}

func TestNetrcFile(t *testing.T) {
	t.Setenv("NETRC", "")
	t.Setenv("HOME", "/home/me")
	for system, want := range map[string]string{"linux": "/home/me/.netrc", "darwin": "/home/me/.netrc", "windows": "/home/me/_netrc"} {
		if got := filepath.ToSlash(NetrcFile(system)); got != want {
			t.Errorf("%s: %s", system, got)
		}
	}
	t.Setenv("NETRC", "other")
	if got := NetrcFile("windows"); got != "other" {
		t.Error(got)
	}
}

// TestIsPlain says which URLs show a login to somebody.
func TestIsPlain(t *testing.T) {
	for to, is := range map[string]bool{"https://shelf.example.com": false, "http://127.0.0.1:80": false, "http://[::1]": false,
		"http://localhost:1": false, "http://LOCALHOST": true, "http://127.8.8.8/x": false, "http://shelf.example.com": true,
		"http://127.0.0.1.example.com": true, "http://10.0.0.1": true, "http://localhost.example.com": true, "http://0.0.0.0": true} {
		if IsPlain(to) != is {
			t.Errorf("%s: %v", to, !is)
		}
	}
}

func TestURL(t *testing.T) {
	for _, text := range []string{"x", "http://x/k/" + key, "http://x/k", "http://a:b@x", "http://x?a", "http://x?", "http://x#a",
		"http://", "ftp://x", "http://x\n", "https://%zz"} {
		if err := CheckURL("--to", text); err == nil || strings.Contains(err.Error(), key) {
			t.Errorf("%q: %v", text, err)
		}
	}
	for _, text := range []string{"http://x", "https://x:8443/below/it", "https://[::1]:80"} {
		if err := CheckURL("--to", text); err != nil {
			t.Errorf("%q: %v", text, err)
		}
	}
}

func TestKey(t *testing.T) {
	for text, isKey := range map[string]bool{key: true, key + "\r\n": true, "\ufeff" + key + "\r\n": true, " " + key + "\n\n": true, "": false, "short": false,
		key + " " + key: false, strings.ToUpper(key): false, strings.Repeat("a", 65): false} {
		got, err := KeyLogin("-", strings.NewReader(text))
		if (err == nil && got.Key == key) != isKey {
			t.Errorf("%q: %v", text, err)
		}
	}
	if _, err := KeyLogin(key, nil); err == nil || strings.Contains(err.Error(), key) {
		t.Errorf("a key as a name: %v", err)
	}
}
