// The service of plain.c over Go's net/http: one lock, long polls on channels, a goroutine a connection (net/http's), a
// journal that keeps what was handed in, payloads read as JSON, a deadline for each invocation, and a Next withdrawn
// where its runtime goes away. One function f, runtimes alone; nothing proved.
//
// usage: plain_go INVOKE_PORT ENVIRONMENTS   (environment n listens on INVOKE_PORT + n)
package main

import (
	"encoding/json"
	"fmt"
	"io"
	"net"
	"net/http"
	"os"
	"strconv"
	"strings"
	"sync"
	"time"
)

const (
	mostEnvironments = 256
	mostBytes        = 6291456
	timeout          = 900 * time.Second
)

type invocation struct {
	payload, output []byte
	answered        chan struct{}
}

type environment struct {
	bell  chan struct{} // of the Next that waits, none where none does
	open  *invocation   // what it works on
	count uint64        // the count in its invocation's identifier
	asks  uint64        // how often its runtime asked, so that a newer poll replaces an older one
}

type entry struct {
	moment      int64
	environment int // 0 of an invocation
	bytes       []byte
}

var (
	lock                         sync.Mutex
	environments                 []environment
	invoked, admitted, throttled uint64
	journal                      []entry
)

// The lock is held.
func keep(environment int, bytes []byte) {
	journal = append(journal, entry{time.Now().UnixMilli(), environment, bytes})
}

func ring(bell chan struct{}) {
	select {
	case bell <- struct{}{}:
	default:
	}
}

func reply(w http.ResponseWriter, status int, body []byte) {
	w.Header().Set("Content-Type", "application/json")
	w.Header().Set("Content-Length", strconv.Itoa(len(body)))
	w.WriteHeader(status)
	w.Write(body)
}

func text(w http.ResponseWriter, status int, body string) {
	reply(w, status, []byte(body))
}

func readBody(r *http.Request) ([]byte, error) {
	if r.ContentLength < 0 {
		return io.ReadAll(r.Body)
	}
	body := make([]byte, r.ContentLength)
	_, err := io.ReadFull(r.Body, body)
	return body, err
}

// An environment that works on nothing, nil where none is: one whose runtime asks, else one whose runtime has answered
// and is on its way to ask again. The lock is held.
func freeEnvironment() *environment {
	var at *environment
	for n := 1; n < len(environments); n++ {
		e := &environments[n]
		if e.open != nil || e.asks == 0 {
			continue
		}
		if e.bell != nil {
			return e
		}
		if at == nil {
			at = e
		}
	}
	return at
}

func invoke(w http.ResponseWriter, r *http.Request) {
	if r.ContentLength > mostBytes {
		text(w, 413, `{"Message":"Payload is too long","Type":"User"}`)
		return
	}
	payload, err := readBody(r)
	if err != nil {
		return
	}
	if len(payload) > 0 && !json.Valid(payload) {
		text(w, 400, `{"Message":"Payload is not JSON","Type":"User"}`)
		return
	}
	i := &invocation{payload: payload, answered: make(chan struct{})}
	lock.Lock()
	at := freeEnvironment()
	if at == nil {
		throttled++
		lock.Unlock()
		text(w, 429, `{"Reason":"LocalEnvironmentLimitExceeded","Type":"User","message":"Rate Exceeded."}`)
		return
	}
	admitted++
	keep(0, payload)
	invoked++
	at.open, at.count = i, invoked
	if at.bell != nil {
		ring(at.bell)
	}
	lock.Unlock()
	deadline := time.NewTimer(timeout)
	defer deadline.Stop()
	select {
	case <-i.answered:
	case <-deadline.C:
		lock.Lock()
		late := at.open == i
		if late {
			at.open = nil
		}
		lock.Unlock()
		if late {
			w.Header().Set("X-Amz-Function-Error", "Unhandled")
			text(w, 200, `{"errorMessage":"Task timed out"}`)
			return
		}
	}
	w.Header().Set("X-Amz-Executed-Version", "$LATEST")
	reply(w, 200, i.output)
}

func next(w http.ResponseWriter, r *http.Request, e *environment) {
	bell := make(chan struct{}, 1)
	lock.Lock()
	e.asks++
	mine := e.asks
	if e.bell != nil {
		ring(e.bell)
	}
	e.bell = bell
	for e.open == nil && e.asks == mine {
		lock.Unlock()
		gone := false
		select {
		case <-bell:
		case <-r.Context().Done():
			gone = true
		}
		lock.Lock()
		if gone {
			if e.asks == mine && e.open == nil {
				e.bell = nil
			}
			lock.Unlock()
			return
		}
	}
	if e.asks != mine {
		lock.Unlock()
		text(w, 403, `{"errorMessage":"A newer poll replaced this one","errorType":"InvalidStateTransition"}`)
		return
	}
	e.bell = nil
	payload, count := e.open.payload, e.count
	lock.Unlock()
	h := w.Header()
	h.Set("Lambda-Runtime-Aws-Request-Id", fmt.Sprintf("00000000-0000-8000-8001-%012x", count))
	h.Set("Lambda-Runtime-Deadline-Ms", strconv.FormatInt(time.Now().Add(timeout).UnixMilli(), 10))
	h.Set("Lambda-Runtime-Invoked-Function-Arn", "arn:aws:lambda:us-east-2:123456789012:function:f")
	reply(w, 200, payload)
}

func respond(w http.ResponseWriter, r *http.Request, n int) {
	output, err := readBody(r)
	if err != nil {
		return
	}
	id := strings.TrimSuffix(r.URL.Path, "/response")
	count, err := strconv.ParseUint(id[strings.LastIndexByte(id, '-')+1:], 16, 64)
	e := &environments[n]
	lock.Lock()
	if err != nil || e.open == nil || e.count != count {
		lock.Unlock()
		text(w, 400, `{"errorMessage":"Not the open invocation","errorType":"InvalidRequestID"}`)
		return
	}
	i := e.open
	e.open = nil
	keep(n, output)
	i.output = output
	close(i.answered)
	lock.Unlock()
	text(w, 202, "{\"status\":\"OK\"}\n")
}

func serve(w http.ResponseWriter, r *http.Request, n int) {
	path := r.URL.Path
	switch {
	case n == 0 && strings.Contains(path, "/invocations"):
		invoke(w, r)
	case n == 0 && path == "/_local/stats":
		lock.Lock()
		body := fmt.Sprintf(`{"admitted":%d,"throttled":%d}`, admitted, throttled)
		lock.Unlock()
		text(w, 200, body)
	case n > 0 && path == "/2018-06-01/runtime/invocation/next":
		next(w, r, &environments[n])
	case n > 0 && path == "/2020-01-01/extension/event/next":
		<-r.Context().Done()
	case n > 0 && strings.HasSuffix(path, "/response"):
		respond(w, r, n)
	default:
		text(w, 404, `{"errorMessage":"No such resource","errorType":"NotFound"}`)
	}
}

func fail(status int, words ...any) {
	fmt.Fprintln(os.Stderr, words...)
	os.Exit(status)
}

func main() {
	if len(os.Args) != 3 {
		fail(2, "usage: plain_go INVOKE_PORT ENVIRONMENTS")
	}
	port, portErr := strconv.Atoi(os.Args[1])
	count, countErr := strconv.Atoi(os.Args[2])
	if portErr != nil || countErr != nil || count < 1 || count > mostEnvironments {
		fail(2, "usage: plain_go INVOKE_PORT ENVIRONMENTS")
	}
	environments = make([]environment, count+1)
	for n := 0; n <= count; n++ {
		n := n
		listener, err := net.Listen("tcp4", fmt.Sprintf("127.0.0.1:%d", port+n))
		if err != nil {
			fail(4, "plain_go:", err)
		}
		handler := http.HandlerFunc(func(w http.ResponseWriter, r *http.Request) { serve(w, r, n) })
		go (&http.Server{Handler: handler}).Serve(listener)
	}
	fmt.Fprintln(os.Stderr, "listening")
	select {}
}
