package names

import (
	"reflect"
	"testing"
)

func TestVersions(t *testing.T) {
	for _, it := range []struct {
		text, revision string
		is             bool
	}{
		{"v1.2.3", "", true}, {"v0.0.0-rc.1", "", true}, {"v2.0.0+incompatible", "", true}, {"v1.2", "", false},
		{"1.2.3", "", false}, {"v01.2.3", "", false}, {"v1.2.3+meta", "", false},
		{"v1.0.0-20240131120000-abcdefabcdef", "abcdefabcdef", true},
		{"v1.0.1-0.20240131120000-abcdefabcdef+incompatible", "abcdefabcdef", true},
		{"v1.0.0-20240131120000-ABCDEFABCDEF", "", true},
	} {
		if got := IsVersion(it.text); got != it.is || Revision(it.text) != it.revision {
			t.Errorf("%s: %v, %q", it.text, got, Revision(it.text))
		}
	}
	for text, is := range map[string]bool{"v1": true, "v1.2": true, "v1.2.3": false, "1.2": false, "v": false} {
		if IsShort(text) != is {
			t.Errorf("%s is short: %v", text, !is)
		}
	}
}

func TestPaths(t *testing.T) {
	for module, want := range map[string][]string{
		"a.com/b": {"b", ""}, "a.com/b/c/v2": {"b/c", "c", ""}, "gopkg.in/a.v2": {"a.v2", ""}, "a.com/v1": {"v1", ""},
		"a.com": {""},
	} {
		if got := Folders(module); !reflect.DeepEqual(got, want) {
			t.Errorf("folders of %s: %q", module, got)
		}
	}
	for text, is := range map[string]bool{"a.com/b-c_d~e": true, "a b": false, "/a": false, "a//b": false, "a/": false, "a!b": false} {
		if IsPath(text) != is {
			t.Errorf("%s is a path: %v", text, !is)
		}
	}
	if got := Target("a.com/B/cD", "v1.0.0-RC.1"); got != "a.com/!b/c!d/@v/v1.0.0-!r!c.1" {
		t.Error(got)
	}
	if got := Unescaped("a.com/!b/c!d!!"); got != "a.com/B/cD!!" {
		t.Error(got)
	}
}

func TestDirective(t *testing.T) {
	gomod := "module \"a.com/x\" // module b\r\n// require z v1\nrequire(\n\tc v1\n\t`d` v2 // (\n)\nrequire e v1\n" +
		"retract (\nrequire v1\n)\n"
	if got := Directive([]byte(gomod), "require"); !reflect.DeepEqual(got, []string{"c", "d", "e"}) {
		t.Errorf("%q", got)
	}
	if got := Module([]byte(gomod)); got != "a.com/x" {
		t.Error(got)
	}
	if got := Module([]byte("modules a\nmodule\n")); got != "" {
		t.Error(got)
	}
}
