package release

import (
	"context"
	"fmt"
	"net"
	"net/http"
	"path"
	"path/filepath"
	"strings"

	"example.com/goshelf-publish/internal/names"
)

// FromClone has the go command make a version of a module in a clone.
func (t Tools) FromClone(ctx context.Context, folder string, asked Asked) (*Release, error) {
	from := &clone{Tools: t, folder: folder, copy: filepath.ToSlash(t.at("copy"))}
	if err := from.take(ctx); err != nil {
		return nil, err
	}
	it, err := from.find(ctx, asked.Module, asked.Ref)
	if err != nil {
		return nil, err
	}
	settings, stop, err := from.answer(asked.Module, it.folder)
	if err != nil {
		return nil, err
	}
	defer stop()
	made, err := t.make(ctx, asked, it, settings)
	if err == nil && names.Revision(made.Version) == "" {
		made.After = from.after(ctx, it.commit, it.at)
	}
	return made, err
}

// answer returns settings by which the go command finds the module in the copy, whatever the user's: this process
// answers its question `https://MODULE?go-get=1`, and git takes the copy in place of the URL of the answer. It ends
// with a call of stop.
func (c *clone) answer(module, folder string) (settings []string, stop func(), err error) {
	front, _ := names.SplitMajor(module)
	root := strings.TrimSuffix(front, "/"+folder)
	copy := strings.NewReplacer(`\`, `\\`, `"`, `\"`).Replace(c.copy)
	home := "[url \"" + copy + "\"]\n\tinsteadOf = https://" + strings.TrimSuffix(root, ".git") + "\n"
	if err := c.Write("home/.gitconfig", []byte(home)); err != nil {
		return nil, nil, err
	}
	listener, err := net.Listen("tcp", "127.0.0.1:0")
	if err != nil {
		return nil, nil, fmt.Errorf("the go command cannot be answered on 127.0.0.1: allow it: %w", err)
	}
	host := &http.Server{Handler: http.HandlerFunc(func(w http.ResponseWriter, asked *http.Request) {
		if asked.Method != http.MethodGet { // (no TLS, so the go command asks without)
			http.Error(w, "not implemented", http.StatusNotImplemented)
			return
		}
		fmt.Fprintf(w, "<meta name=\"go-import\" content=\"%s git https://%s\">\n", root, root)
	})}
	go host.Serve(listener)
	proxy := "http://" + listener.Addr().String()
	return []string{"HOME=" + c.at("home"), "USERPROFILE=" + c.at("home"), "XDG_CONFIG_HOME=" + c.at("home"),
		"GOENV=off", "GOINSECURE=*", "GOVCS=*:git", "HTTP_PROXY=" + proxy, "HTTPS_PROXY=" + proxy, "NO_PROXY=", "no_proxy=",
		"GIT_CONFIG_GLOBAL=" + c.at("home/.gitconfig"), "GIT_CONFIG_NOSYSTEM=1", "GIT_CONFIG_COUNT=0",
		"GIT_CONFIG_PARAMETERS=", "GIT_ALLOW_PROTOCOL=file:https"}, func() { host.Close() }, nil
}

// FromHost has the go command make a version of a module from the host that its path names.
func (t Tools) FromHost(ctx context.Context, asked Asked) (*Release, error) {
	if names.IsShort(asked.Ref) {
		return nil, notVersion(asked.Ref)
	}
	it := place{query: asked.Ref}
	front, _ := names.SplitMajor(asked.Module)
	folder, last := path.Split(asked.Ref)
	if folder != "" && names.IsVersion(last) && strings.HasSuffix("/"+front+"/", "/"+folder) {
		it.query = last
	}
	return t.make(ctx, asked, it, nil)
}

// IsHere says whether this runs in a clone that has a module.
func (t Tools) IsHere(ctx context.Context, module string) bool {
	top, err := t.git(ctx, ".", "rev-parse", "--show-toplevel")
	if err != nil {
		return false
	}
	from := &clone{Tools: t, folder: strings.TrimSpace(string(top))}
	for _, name := range from.goMods(ctx, "HEAD") {
		if from.moduleAt(ctx, "HEAD", name) == module {
			return true
		}
	}
	return false
}
