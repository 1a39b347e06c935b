package server

import (
	"context"
	"crypto/tls"
	"errors"
	"fmt"
	"io"
	"net"
	"net/http/httptrace"
	"net/url"
	"runtime"
	"sync/atomic"
	"time"
)

// A transfer watches one exchange: it ends it when nothing moves, and notes how far it came.
type transfer struct {
	timer                    *time.Timer
	wait                     time.Duration
	isLate, connected, noTLS atomic.Bool
}

func (t *transfer) trace() *httptrace.ClientTrace {
	return &httptrace.ClientTrace{
		GotConn:          func(httptrace.GotConnInfo) { t.connected.Store(true) },
		TLSHandshakeDone: func(_ tls.ConnectionState, err error) { t.noTLS.Store(err != nil) },
	}
}

// A meter calls a function for the bytes that are read through it.
type meter struct {
	io.Reader
	moved func(count int)
}

func (m meter) Read(into []byte) (int, error) {
	count, err := m.Reader.Read(into)
	m.moved(count)
	return count, err
}

// progress returns what is called for the bytes that are sent.
func (s *Server) progress(run *transfer, all int) func(int) {
	sent, shown := 0, time.Now()
	return func(count int) {
		run.timer.Reset(run.wait)
		sent += count
		if all >= shownFrom && (time.Since(shown) > 200*time.Millisecond || count > 0 && sent == all) {
			shown = time.Now()
			s.show("\r%s: sent %d of %d KiB", s.name, sent>>10, all>>10)
			if sent == all {
				s.show("\n")
			}
		}
	}
}

// lost says why there is no reply.
func (s *Server) lost(run *transfer, doubt string, err error) error {
	if wrapped := new(url.Error); errors.As(err, &wrapped) {
		err = wrapped.Err // (its text has the key)
	}
	dial, name := new(net.OpError), new(net.DNSError)
	isDial, isName := errors.As(err, &dial), errors.As(err, &name)
	switch {
	case run.isLate.Load():
		return s.late(s.wait, doubt)
	case isDial && dial.Op == "proxyconnect":
		why := "nobody listens at"
		if isName {
			why = "no host has the name of"
		}
		return fmt.Errorf("%s the proxy by which to ask %s: mend http_proxy and https_proxy, or name the host in no_proxy",
			why, s.URL)
	case isName:
		return fmt.Errorf("no host has the name in %s: check the URL", s.URL)
	case isDial && dial.Op == "dial":
		return fmt.Errorf("nobody listens at %s: check the URL, and that goshelf serves", s.URL)
	case run.noTLS.Load():
		return fmt.Errorf("no TLS with %s: %s, or check the URL (%w)", s.URL, trust(runtime.GOOS), err)
	case errors.Is(err, context.DeadlineExceeded):
		return s.late(s.most, doubt)
	case run.connected.Load():
		return fmt.Errorf("%s closed the connection%s", s.URL, doubt)
	}
	return fmt.Errorf("%s cannot be asked: %w", s.URL, err)
}

// late says that there was no answer, or no whole one, within a time.
func (s *Server) late(within time.Duration, doubt string) error {
	return fmt.Errorf("%s did not answer within %d seconds%s", s.URL, int(within.Seconds()), doubt)
}

// trust says how a user of a system has a certificate trusted.
func trust(system string) string {
	if system == "darwin" || system == "windows" { // (where Go asks the system alone)
		return "have the system trust its certificate"
	}
	return "name its certificates by SSL_CERT_FILE"
}
