// Package server asks goshelf, or what stands in front of it. No sentence of it has a key or a password.
package server

import (
	"bytes"
	"context"
	"fmt"
	"io"
	"net/http"
	"net/http/httptrace"
	"os"
	"strconv"
	"time"
)

const (
	longestTransfer = 15 * time.Minute
	mostRetries     = 4
	longestRetries  = 30 * time.Second // after the first try no other begins later
	firstPause      = 500 * time.Millisecond
	largestReply    = 16<<20 + 1 // a byte more than any file that goshelf has
	shownFrom       = 1 << 20    // the progress of a longer body is shown
)

// What a lost connection leaves in doubt.
const (
	MaybePublished = ", so it may or may not have published. Run this again: it ends well if the version is there."
	NothingDone    = ": run this again"
)

// A Server is goshelf, or what stands in front of it.
type Server struct {
	Login
	URL    string
	name   string // of the program
	wait   time.Duration
	most   time.Duration // for one exchange
	pause  time.Duration // before the second try; then twice as long each time
	client http.Client
	screen io.Writer // nil where nobody looks
}

// A Request is what is asked of a server: a target below its URL, and for a PUT a body.
type Request struct {
	Method, Target string
	Header         map[string]string
	Body           []byte
	Doubt          string
}

// A Reply is what a server answers.
type Reply struct {
	Status int
	Body   []byte
	pause  time.Duration // that it asks for before the next try
}

// Get returns the request of a file.
func Get(target string) Request { return Request{Method: "GET", Target: target, Doubt: NothingDone} }

// Put returns the request that publishes a go.mod and a zip.
func Put(target, time string, gomod, zip []byte, doubt string) Request {
	header := map[string]string{"Mod-Length": strconv.Itoa(len(gomod))}
	if time != "" {
		header["Version-Time"] = time
	}
	body := append(append([]byte{}, gomod...), zip...)
	return Request{Method: "PUT", Target: target, Header: header, Body: body, Doubt: doubt}
}

// New returns a server. It shows progress where stderr is a terminal, each line after the name of a program.
func New(name, url string, login Login, wait time.Duration, stderr io.Writer) *Server {
	transport := http.DefaultTransport.(*http.Transport).Clone()
	transport.DisableKeepAlives = true
	s := &Server{Login: login, URL: url, name: name, wait: wait, most: longestTransfer, pause: firstPause}
	s.client = http.Client{
		Transport:     transport,
		CheckRedirect: func(*http.Request, []*http.Request) error { return http.ErrUseLastResponse },
	}
	if file, ok := stderr.(*os.File); ok {
		if about, err := file.Stat(); err == nil && about.Mode()&os.ModeCharDevice != 0 {
			s.screen = stderr
		}
	}
	return s
}

// Follow has a server that is not goshelf lead elsewhere, but not from https to http. Another host is told no login.
func (s *Server) Follow() *Server {
	s.client.CheckRedirect = func(next *http.Request, before []*http.Request) error {
		if len(before) > 9 || IsPlain(next.URL.String()) && !IsPlain(before[0].URL.String()) {
			return http.ErrUseLastResponse
		}
		if next.URL.Host != before[0].URL.Host { // (net/http goes on with a login below the same domain)
			next.Header.Del("Authorization")
		}
		return nil
	}
	return s
}

// Ask sends a request, again if the server is busy. (A publish may come twice: the second finds the version there.)
func (s *Server) Ask(ctx context.Context, it Request) (Reply, error) {
	begun, pause := time.Now(), s.pause
	for retries := 0; ; retries++ {
		got, err := s.askOnce(ctx, it)
		if got.pause > pause {
			pause = got.pause
		}
		if err != nil || !got.isBusy() || retries == mostRetries || time.Since(begun)+pause > longestRetries {
			return got, err
		}
		s.show("%s: %s answers %d, and is asked again in %s\n", s.name, s.URL, got.Status, pause)
		select {
		case <-ctx.Done():
			return Reply{}, ctx.Err()
		case <-time.After(pause):
			pause *= 2
		}
	}
}

func (r Reply) isBusy() bool {
	switch r.Status {
	case http.StatusTooManyRequests, http.StatusBadGateway, http.StatusServiceUnavailable, http.StatusGatewayTimeout:
		return true
	}
	return false
}

// show writes to the screen, if somebody looks.
func (s *Server) show(format string, words ...any) {
	if s.screen != nil {
		fmt.Fprintf(s.screen, format, words...)
	}
}

// askOnce sends a request once.
func (s *Server) askOnce(ctx context.Context, it Request) (Reply, error) {
	ctx, cancel := context.WithTimeout(ctx, s.most)
	defer cancel()
	run := &transfer{wait: s.wait}
	run.timer = time.AfterFunc(s.wait, func() { run.isLate.Store(true); cancel() })
	defer run.timer.Stop()
	asked, err := s.request(httptrace.WithClientTrace(ctx, run.trace()), it, run)
	if err != nil {
		return Reply{}, fmt.Errorf("%s is not a URL that can be asked", s.URL) // (the cause has the key)
	}
	got, err := s.client.Do(asked)
	if err != nil {
		return Reply{}, s.lost(run, it.Doubt, err)
	}
	defer got.Body.Close()
	body, err := io.ReadAll(meter{io.LimitReader(got.Body, largestReply), func(int) { run.timer.Reset(run.wait) }})
	if err != nil {
		return Reply{}, s.lost(run, it.Doubt, err)
	}
	if got.StatusCode >= 300 { // (no file, so it may be shown)
		body = s.hidden(body)
	}
	seconds, _ := strconv.ParseUint(got.Header.Get("Retry-After"), 10, 16)
	return Reply{got.StatusCode, body, time.Duration(seconds) * time.Second}, nil
}

// request makes a request of net/http.
func (s *Server) request(ctx context.Context, it Request, run *transfer) (*http.Request, error) {
	base := s.URL
	if s.Key != "" {
		base += "/k/" + s.Key
	}
	var body io.Reader
	if len(it.Body) > 0 {
		body = meter{bytes.NewReader(it.Body), s.progress(run, len(it.Body))}
	}
	asked, err := http.NewRequestWithContext(ctx, it.Method, base+"/"+it.Target, body)
	if err != nil {
		return nil, err
	}
	asked.ContentLength = int64(len(it.Body))
	for name, value := range it.Header {
		asked.Header.Set(name, value)
	}
	if s.User != "" {
		asked.SetBasicAuth(s.User, s.Password)
	}
	return asked, nil
}
