package server

import (
	"bytes"
	"context"
	"fmt"
	"io"
	"net"
	"net/http"
	"net/http/httptest"
	"strconv"
	"strings"
	"testing"
	"time"
)

// answering returns a server that gives these answers in turn, the last for good, and counts the requests. A negative
// status asks for a pause of two minutes.
func answering(t *testing.T, wait time.Duration, answers ...int) (*Server, *int) {
	t.Helper()
	asked := 0
	host := httptest.NewServer(http.HandlerFunc(func(w http.ResponseWriter, r *http.Request) {
		io.Copy(io.Discard, r.Body)
		status := answers[len(answers)-1]
		if asked < len(answers) {
			status = answers[asked]
		}
		asked++
		if status < 0 {
			w.Header().Set("Retry-After", "120")
			status = -status
		}
		w.WriteHeader(status)
		fmt.Fprintln(w, "said")
	}))
	t.Cleanup(host.Close)
	s := New("publish", host.URL, Login{Key: key}, wait, io.Discard)
	s.pause = time.Millisecond
	return s, &asked
}

func TestRetry(t *testing.T) {
	for _, it := range []struct {
		answers       []int
		status, asked int
	}{
		{[]int{201}, 201, 1}, {[]int{503, 201}, 201, 2}, {[]int{502, 429, 504, 503, 200}, 200, 5}, {[]int{502}, 502, 5},
		{[]int{500}, 500, 1}, {[]int{301}, 301, 1}, {[]int{404}, 404, 1}, {[]int{-503, 201}, 503, 1}, {[]int{502, -429}, 429, 2},
	} {
		s, asked := answering(t, time.Minute, it.answers...)
		got, err := s.Ask(context.Background(), Put("a", "", []byte("module a"), []byte("zip"), ""))
		if err != nil || got.Status != it.status || string(got.Body) != "said\n" || *asked != it.asked {
			t.Errorf("%v: %d after %d: %v", it.answers, got.Status, *asked, err)
		}
	}
}

// TestLost has servers that hang up, do not answer, are not there, or speak no TLS. No sentence shows the key.
func TestLost(t *testing.T) {
	listener, err := net.Listen("tcp", "127.0.0.1:0")
	if err != nil {
		t.Fatal(err)
	}
	defer listener.Close()
	hold := make(chan net.Conn, 9)
	go func() {
		for at := 0; ; at++ {
			conn, err := listener.Accept()
			if err != nil {
				return
			}
			if at == 0 {
				conn.Close()
				continue
			}
			hold <- conn
		}
	}()
	s, _ := answering(t, time.Second, 200)
	plain := s.URL
	for _, it := range []struct{ url, want string }{
		{"http://" + listener.Addr().String(), "closed the connection: run"},
		{"http://" + listener.Addr().String(), "within 1 seconds: run"}, {"http://127.0.0.1:1", "nobody listens at"},
		{strings.Replace(plain, "http", "https", 1), "no TLS with"}, {"http://nosuch.invalid", "no host has the name in"},
	} {
		s.URL = it.url
		_, err := s.Ask(context.Background(), Get("a"))
		if err == nil || !strings.Contains(err.Error(), it.want) || strings.Contains(err.Error(), key) {
			t.Errorf("%s: %v", it.url, err)
		}
	}
}

// TestHidden has servers that repeat a request. What they say shows no login, and a file stays as it is.
func TestHidden(t *testing.T) {
	host := httptest.NewServer(http.HandlerFunc(func(w http.ResponseWriter, r *http.Request) {
		status, _ := strconv.Atoi(r.URL.Query().Get("status"))
		w.WriteHeader(status)
		fmt.Fprint(w, r.URL.Path, " ", r.Header.Get("Authorization"))
	}))
	defer host.Close()
	for _, it := range []struct {
		login      Login
		target     string
		want, file string
	}{
		{Login{Key: key}, "a", "/k/.../a ", "/k/" + key + "/a "},
		{Login{User: "ann", Password: key}, key, "/... Basic ...", "/" + key + " Basic YW5uOmFscGhha2V5MDAwMDAwMDE="},
		{Login{User: "ann", Password: "a"}, "a", "/a Basic ...", "/a Basic YW5uOmE="},
	} {
		s := New("publish", host.URL, it.login, time.Minute, io.Discard)
		for status, want := range map[int]string{200: it.file, 301: it.want, 404: it.want} {
			got, err := s.Ask(context.Background(), Get(fmt.Sprint(it.target, "?status=", status)))
			if err != nil || string(got.Body) != want {
				t.Errorf("%d: %q, %v", status, got.Body, err)
			}
		}
	}
}

// TestFollow has a server that leads elsewhere, which hears no login, and nobody does in clear.
func TestFollow(t *testing.T) {
	s := New("publish", "", Login{}, time.Minute, io.Discard).Follow()
	for to, want := range map[string]string{"https://a.example/b": "a login", "https://a.example:8443/b": "",
		"https://x.a.example/b": "", "http://a.example/b": "no"} {
		first, _ := http.NewRequest("GET", "https://a.example/", nil)
		next, _ := http.NewRequest("GET", to, nil)
		next.Header.Set("Authorization", "a login")
		err := s.client.CheckRedirect(next, []*http.Request{first})
		if got := next.Header.Get("Authorization"); (err != nil) != (want == "no") || err == nil && got != want {
			t.Errorf("%s: %q, %v", to, got, err)
		}
	}
}

// TestLate has a server that sends a little again and again, and never all.
func TestLate(t *testing.T) {
	host := httptest.NewServer(http.HandlerFunc(func(w http.ResponseWriter, r *http.Request) {
		for r.Context().Err() == nil {
			fmt.Fprintln(w, "more")
			w.(http.Flusher).Flush()
			time.Sleep(10 * time.Millisecond)
		}
	}))
	defer host.Close()
	s := New("publish", host.URL, Login{Key: key}, time.Minute, io.Discard)
	s.most = time.Second
	_, err := s.Ask(context.Background(), Get("a"))
	if want := host.URL + " did not answer within 1 seconds" + NothingDone; err == nil || err.Error() != want {
		t.Error(err)
	}
}

func TestProgress(t *testing.T) {
	var screen bytes.Buffer
	s, _ := answering(t, time.Minute, 503, 201)
	s.screen = &screen
	if _, err := s.Ask(context.Background(), Put("a", "", nil, make([]byte, 3<<20), "")); err != nil {
		t.Fatal(err)
	}
	sent := "\rpublish: sent 3072 of 3072 KiB\n"
	again := fmt.Sprintf("publish: %s answers 503, and is asked again in 1ms\n", s.URL)
	if got := screen.String(); !strings.HasSuffix(got, sent) || !strings.Contains(got, sent+again) {
		t.Errorf("%q", got)
	}
}

func TestTrust(t *testing.T) {
	if trust("linux") == trust("darwin") || trust("darwin") != trust("windows") {
		t.Error("Go reads SSL_CERT_FILE on Linux, and asks the system on others")
	}
}
