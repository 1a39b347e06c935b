// Package gomod finds the first fault of a go.mod by the rules of goshelf.
package gomod

import (
	"regexp"
	"strconv"
	"strings"
	"unicode/utf8"
)

// A token of a line: its kind is that of a word, w, or of a name, n, or a mark as it is written, > for an arrow.
type token struct {
	kind, value string
}

type version struct {
	numbers [3]uint64
	pre     []string
	marked  bool
}

type retraction struct {
	line      int
	low, high version
}

// What the lines that were read say: the directive of the open block, the path of the module, the directives that may
// not come again, and the retractions.
type reader struct {
	block, module string
	once          map[string]bool
	retracted     []retraction
}

const identifier = `(?:0|[1-9]\d*|\d*[A-Za-z-][0-9A-Za-z-]*)`

var (
	quoted   = regexp.MustCompile(`^"(?:[^"\\\x00-\x1f\x7f]|\\[^\x00-\x1f\x7f])*"`)
	raw      = regexp.MustCompile("^`[^`\\x00-\\x1f\\x7f]*`")
	name     = regexp.MustCompile("^[^\\x00-\\x20\\x7f()\\[\\],\"`{}]+")
	escape   = regexp.MustCompile(`\\(.)`)
	keyword  = regexp.MustCompile(`^(?:module|go|toolchain|require|exclude|replace|retract|tool|godebug|ignore)$`)
	goForm   = regexp.MustCompile(`^(?:0|[1-9]\d*)\.(?:0|[1-9]\d*)(?:(?:\.|rc|beta)(?:0|[1-9]\d*))?$`)
	file     = regexp.MustCompile(`^(?:\.{0,2}/|\.{1,2}$)`)
	element  = regexp.MustCompile(`^[0-9A-Za-z_~-](?:[0-9A-Za-z._~-]*[0-9A-Za-z_~-])?$`)
	reserved = regexp.MustCompile(`(?i)^(?:(?:con|prn|aux|nul|com[1-9]|lpt[1-9])|[^.]*~[0-9]+)(?:\.|$)`)
	host     = regexp.MustCompile(`^[a-z0-9.][a-z0-9.-]*$`)
	dotted   = regexp.MustCompile(`^v[0-9.]+$`)
	number   = regexp.MustCompile(`^(?:0|[1-9]\d*)$`)
	semver   = regexp.MustCompile(`^v(0|[1-9]\d*)\.(0|[1-9]\d*)\.(0|[1-9]\d*)` +
		`(?:-(` + identifier + `(?:\.` + identifier + `)*))?(\+incompatible)?$`)
)

// split returns the tokens of a line, and whether it has no others.
func split(line string) (tokens []token, ok bool) {
	for {
		line = strings.TrimLeft(line, " \t\r")
		if line == "" || strings.HasPrefix(line, "//") {
			return tokens, true
		}
		it, length := first(line)
		if length == 0 {
			return nil, false
		}
		tokens, line = append(tokens, it), line[length:]
	}
}

// first returns the token at the start of a text, and its length, or 0 if there is none.
func first(text string) (token, int) {
	if strings.IndexByte("()[],", text[0]) >= 0 {
		return token{text[:1], ""}, 1
	}
	if it := quoted.FindString(text); it != "" {
		return token{"w", escape.ReplaceAllString(it[1:len(it)-1], "$1")}, len(it)
	}
	if it := raw.FindString(text); it != "" {
		return token{"w", it[1 : len(it)-1]}, len(it)
	}
	it := name.FindString(text)
	if end := strings.Index(it, "//"); end >= 0 {
		it = it[:end]
	}
	switch {
	case strings.Contains(it, "/*"):
		return token{}, 0
	case it == "=>":
		return token{">", ""}, 2
	}
	return token{"n", it}, len(it)
}

// form returns the kinds of tokens, w for a name too.
func form(tokens []token) (kinds string) {
	for _, it := range tokens {
		kinds += strings.Replace(it.kind, "n", "w", 1)
	}
	return kinds
}

// suffix returns the major version that ends a path, and whether it stands after a dot; 0 for none. It is not ok where
// the ending is not valid.
func suffix(path string) (major uint64, dot, ok bool) {
	slash := strings.LastIndexByte(path, '/')
	last := path[slash+1:]
	switch {
	case slash < 0:
		return 0, false, true
	case strings.HasPrefix(path, "gopkg.in/"):
		at := strings.LastIndex(last, ".v")
		if at < 0 || !number.MatchString(last[at+2:]) {
			return 0, true, false
		}
		major, err := strconv.ParseUint(last[at+2:], 10, 64)
		return major, true, err == nil
	case !dotted.MatchString(last):
		return 0, false, true
	}
	major, err := strconv.ParseUint(last[1:], 10, 64)
	return major, false, err == nil && major >= 2 && number.MatchString(last[1:])
}

// isPath says whether a text is a path that a go.mod may require, or, if it is strict, one of a module.
func isPath(text string, strict bool) bool {
	if len(text) > 255 {
		return false
	}
	elements := strings.Split(text, "/")
	for _, it := range elements {
		if !element.MatchString(it) || reserved.MatchString(it) {
			return false
		}
	}
	_, _, ok := suffix(text)
	return ok && (!strict || host.MatchString(elements[0]) && strings.Contains(elements[0], "."))
}

func parse(text string) (it version, ok bool) {
	found := semver.FindStringSubmatch(text)
	if found == nil || len(text) > 128 {
		return it, false
	}
	for at := range it.numbers {
		number, err := strconv.ParseUint(found[at+1], 10, 64)
		if err != nil {
			return it, false
		}
		it.numbers[at] = number
	}
	if found[4] != "" {
		it.pre = strings.Split(found[4], ".")
	}
	it.marked = found[5] != ""
	return it, true
}

// fits says whether a path may have a version.
func fits(path string, it version) bool {
	major, dot, _ := suffix(path)
	if !dot && major == 0 {
		return it.marked == (it.numbers[0] >= 2)
	}
	old := dot && major == 1 && it.numbers == [3]uint64{} && it.pre != nil
	return !it.marked && (it.numbers[0] == major || old)
}

func isFitting(path, text string) bool {
	it, ok := parse(text)
	return ok && fits(path, it)
}

// isBelow says whether a version has a lower precedence than another.
func isBelow(low, high version) bool {
	for at := range low.numbers {
		if low.numbers[at] != high.numbers[at] {
			return low.numbers[at] < high.numbers[at]
		}
	}
	if low.pre == nil || high.pre == nil {
		return low.pre != nil && high.pre == nil
	}
	return precedes(low.pre, high.pre)
}

// precedes says whether the identifiers of a pre-release are below those of another.
func precedes(low, high []string) bool {
	for at := 0; at < len(low) && at < len(high); at++ {
		if low[at] != high[at] {
			return isLower(low[at], high[at])
		}
	}
	return len(low) < len(high)
}

// isLower compares two identifiers: a number is below a text, and a shorter number below a longer.
func isLower(low, high string) bool {
	isLow, isHigh := number.MatchString(low), number.MatchString(high)
	if isLow != isHigh {
		return isLow
	}
	if isLow && len(low) != len(high) {
		return len(low) < len(high)
	}
	return low < high
}

// isEntry says whether tokens are an entry of a directive.
func isEntry(directive string, its []token) bool {
	kinds := form(its)
	switch directive {
	case "module":
		return kinds == "w" && isPath(its[0].value, true)
	case "go":
		return kinds == "w" && goForm.MatchString(its[0].value)
	case "require", "exclude":
		return kinds == "ww" && isPath(its[0].value, false) && isFitting(its[0].value, its[1].value)
	case "replace":
		return isReplacement(kinds, its)
	case "retract":
		low, high, ok := interval(kinds, its)
		return ok && !isBelow(high, low)
	}
	return kinds == "w"
}

func isReplacement(kinds string, its []token) bool {
	at := strings.Index(kinds, ">")
	if at < 1 || at > 2 || strings.Trim(kinds, "w") != ">" || !isPath(its[0].value, false) {
		return false
	}
	if at == 2 && !isFitting(its[0].value, its[1].value) {
		return false
	}
	switch its = its[at+1:]; len(its) {
	case 1:
		return file.MatchString(its[0].value)
	case 2:
		return isPath(its[0].value, true) && isFitting(its[0].value, its[1].value)
	}
	return false
}

// interval returns the ends of a retraction.
func interval(kinds string, its []token) (low, high version, ok bool) {
	if kinds != "w" && kinds != "[w,w]" {
		return low, high, false
	}
	from, to := its[0].value, its[0].value
	if kinds == "[w,w]" {
		from, to = its[1].value, its[3].value
	}
	low, isLow := parse(from)
	high, isHigh := parse(to)
	return low, high, isLow && isHigh
}

// reads says whether a line of tokens may follow the lines that were read.
func (r *reader) reads(line int, its []token) bool {
	directive := r.block
	if directive == "" {
		directive = its[0].value
		if its[0].kind != "n" || !keyword.MatchString(directive) || r.once[directive] {
			return false
		}
		if its = its[1:]; form(its) == "(" && directive != "go" && directive != "toolchain" {
			r.block = directive
			return true
		}
	} else if form(its) == ")" && (directive != "module" || r.module != "") {
		r.block = ""
		return true
	}
	return isEntry(directive, its) && r.takes(line, directive, its)
}

// takes notes an entry. It says no to a second module in a block.
func (r *reader) takes(line int, directive string, its []token) bool {
	switch directive {
	case "module":
		if r.module != "" {
			return false
		}
		r.module, r.once[directive] = its[0].value, true
	case "go", "toolchain":
		r.once[directive] = true
	case "retract":
		low, high, _ := interval(form(its), its)
		r.retracted = append(r.retracted, retraction{line, low, high})
	}
	return true
}

// end returns the line of a fault that shows at the end, 0 for a go.mod without a module, or -1.
func (r *reader) end(last int) int {
	if r.block != "" {
		return last
	}
	if r.module == "" {
		return 0
	}
	for _, it := range r.retracted {
		if !fits(r.module, it.low) || !fits(r.module, it.high) {
			return it.line
		}
	}
	return -1
}

// Fault returns the line of the first fault of a go.mod, 0 for one that it has as a whole, or -1.
func Fault(text string) int {
	if !utf8.ValidString(text) {
		return 0
	}
	r, lines := reader{once: map[string]bool{}}, strings.Split(text, "\n")
	for at, line := range lines {
		if its, ok := split(line); !ok || len(its) > 0 && !r.reads(at+1, its) {
			return at + 1
		}
	}
	return r.end(len(lines))
}
