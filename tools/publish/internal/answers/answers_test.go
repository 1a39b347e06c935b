package answers

import (
	"strings"
	"testing"

	"example.com/goshelf-publish/internal/server"
)

func TestRefusal(t *testing.T) {
	for _, it := range []struct {
		status            int
		body, login, want string
	}{
		{403, "forbidden\n", "", "the key only reads"}, {403, "forbidden", "ann", "F logs in as a user"},
		{403, "<html>", "ann", "answers 403 and is no"}, {403, "taken out\n", "ann", "a v3.0.0+incompatible was taken out of https://h:8443/U"},
		{422, "bad-gomod 2\n", "", "line 2 of the go.mod is not valid: mend it, and tag a new version (frob)"},
		{422, "bad-gomod 0", "", "no module line"},
		{404, "the key does not go into the URL, but into ~/.netrc, as the password\n", "", "give --netrc in place of --key-file"},
		{422, "bad-gomod x", "", "answers 422 and is no goshelf: check the URL (bad-gomod x)"},
		{422, "incompatible-gomod", "", "name the module a/v3"}, {401, "", "", "U wants a user"},
		{401, "", "ann", "https://h:8443/U does not take the password of ann: mend the line for h in F, or ask"},
		{401, "", "no line", "F has no line with a login for h: add one"},
		{403, "forbidden", "no line", "F logs in as a user"}, {404, "not found", "no line", "lost the key of your user"},
		{500, "", "", "is down or busy"}, {302, "", "", "leads to another URL"}, {503, "unavailable", "", "the store met a fault"},
		{413, "", "", "takes no body of 7 bytes"}, {418, "a\x1b[0m\u202e", "", "(a[0m)"},
	} {
		asked := Ask{To: "https://h:8443/U", Module: "a", Version: "v3.0.0+incompatible", GoMod: []byte("module a\nfrob\n"), Sent: 7}
		if it.login != "" {
			asked.Netrc, asked.User = "F", strings.TrimPrefix(it.login, "no line")
		}
		got := server.Reply{Status: it.status, Body: []byte(it.body)}
		if err := Refusal(got, asked); !strings.Contains(err.Error(), it.want) {
			t.Errorf("%d %s: %v", it.status, it.body, err)
		}
	}
}

func TestGoMod(t *testing.T) {
	for text, want := range map[string]string{"module a.com/b\n": "", "module a.com/b\nfrob\n": "line 2", "": "no module line",
		"module a.com/b\r\nrequire (\r\n\ta.com/c v1.0.0\r\n)\r\n": ""} {
		err := GoMod([]byte(text))
		if (err == nil) != (want == "") || err != nil && !strings.Contains(err.Error(), want) {
			t.Errorf("%q: %v", text, err)
		}
	}
}
