// Package names has what the publisher knows of module paths, versions and go.mods before the go command reads them.
package names

import (
	"path"
	"regexp"
	"strings"
)

const number = `(?:0|[1-9][0-9]*)`

var (
	modulePath = regexp.MustCompile(`^[A-Za-z0-9._~-]+(/[A-Za-z0-9._~-]+)*$`)
	version    = regexp.MustCompile(`^v` + number + `\.` + number + `\.` + number +
		`(?:-[0-9A-Za-z.-]+)?(?:\+incompatible)?$`)
	pseudo  = regexp.MustCompile(`[.-][0-9]{14}-([0-9a-f]{12})(?:\+incompatible)?$`)
	short   = regexp.MustCompile(`^v[0-9]+(?:\.[0-9]+)?$`)
	major   = regexp.MustCompile(`/(v(?:[2-9]|[1-9][0-9]+))$`)
	capital = regexp.MustCompile(`[A-Z]`)
	marked  = regexp.MustCompile(`![a-z]`)
	comment = regexp.MustCompile(`//.*`)
	bracket = regexp.MustCompile(`[()]`)
)

// IsPath says whether a text has the form of a module path.
func IsPath(text string) bool { return modulePath.MatchString(text) }

// IsVersion says whether a text is a version of a module.
func IsVersion(text string) bool { return version.MatchString(text) }

// IsShort says whether a text is a version that lacks a number, such as v1.2.
func IsShort(text string) bool { return short.MatchString(text) }

// Revision returns the commit that a pseudo-version names, or "".
func Revision(text string) string {
	if found := pseudo.FindStringSubmatch(text); found != nil && IsVersion(text) {
		return found[1]
	}
	return ""
}

// Plain returns a version without +incompatible.
func Plain(version string) string { return strings.TrimSuffix(version, "+incompatible") }

// SplitMajor parts a module path from the major version that ends it, such as v2, or from "".
func SplitMajor(module string) (front, ending string) {
	if found := major.FindStringSubmatch(module); found != nil && !strings.HasPrefix(module, "gopkg.in/") {
		return strings.TrimSuffix(module, found[0]), found[1]
	}
	return module, ""
}

// Folders returns those in which a module may lie, by its path: each ending of it, the longest first.
func Folders(module string) (all []string) {
	rest, _ := SplitMajor(module)
	for rest != "" {
		_, rest, _ = strings.Cut(rest, "/")
		all = append(all, rest)
	}
	return all
}

// Escaped returns a path or a version as it stands in a URL: each capital as ! and its small letter.
func Escaped(text string) string { return strings.ToLower(capital.ReplaceAllString(text, "!$0")) }

// Unescaped returns the path or the version that a URL or the name of a file has.
func Unescaped(text string) string {
	return marked.ReplaceAllStringFunc(text, func(it string) string { return strings.ToUpper(it[1:]) })
}

// Target returns what names a version in a URL.
func Target(module, version string) string {
	return path.Join(Escaped(module), "@v", Escaped(version))
}

// Directive returns the first word of each line that a go.mod has of a directive. The go.mod may be one that no go
// command reads.
func Directive(gomod []byte, name string) (words []string) {
	block := ""
	for _, line := range strings.Split(strings.NewReplacer(`"`, "", "`", "").Replace(string(gomod)), "\n") {
		fields := strings.Fields(bracket.ReplaceAllString(comment.ReplaceAllString(line, ""), " $0 "))
		switch {
		case len(fields) == 0:
		case fields[0] == ")":
			block = ""
		case block == name:
			words = append(words, fields[0])
		case block != "" || len(fields) == 1:
		case fields[1] == "(":
			block = fields[0]
		case fields[0] == name:
			words = append(words, fields[1])
		}
	}
	return words
}

// Module returns the path that a go.mod names, or "".
func Module(gomod []byte) string {
	if words := Directive(gomod, "module"); len(words) > 0 {
		return words[0]
	}
	return ""
}
