// A runtime in Go, with nothing but its standard library: asks for an invocation, calls the handler, posts its output.
//
// usage: go run examples/runtime.go   (the address: AWS_LAMBDA_RUNTIME_API, else 127.0.0.1:9001)
package main

import (
	"bytes"
	"encoding/json"
	"errors"
	"fmt"
	"io"
	"net/http"
	"os"
	"runtime"
	"strings"
	"time"
)

// Your handler: an error that it returns, or a panic, is the invocation's error.
func handler(event json.RawMessage) (any, error) {
	var input struct{ Name string }
	if err := json.Unmarshal(event, &input); err != nil {
		return nil, err
	}
	if input.Name == "" {
		return nil, errors.New("whom shall I greet?")
	}
	return map[string]string{"greeting": "Hello, " + input.Name + "!"}, nil
}

type frame struct {
	Path  string `json:"path"`
	Line  int    `json:"line"`
	Label string `json:"label"`
}

// What Lambda's Go library reports of an error.
type report struct {
	Message string  `json:"errorMessage"`
	Type    string  `json:"errorType"`
	Stack   []frame `json:"stackTrace,omitempty"`
}

func typeOf(value any) string {
	name := fmt.Sprintf("%T", value)
	return name[strings.LastIndex(name, ".")+1:]
}

// The frames of the goroutine that panics, from the panic on.
func stack() (frames []frame) {
	counters := make([]uintptr, 64)
	found := runtime.CallersFrames(counters[:runtime.Callers(4, counters)])
	for more := true; more; {
		var at runtime.Frame
		at, more = found.Next()
		frames = append(frames, frame{at.File, at.Line, at.Function})
	}
	return frames
}

// What the handler gives as the body to post, and whether it panicked.
func call(event []byte) (output []byte, fault *report, panicked bool) {
	defer func() {
		if cause := recover(); cause != nil {
			fault, panicked = &report{fmt.Sprint(cause), typeOf(cause), stack()}, true
		}
	}()
	given, err := handler(event)
	if err == nil {
		output, err = json.Marshal(given)
	}
	if err != nil {
		fault = &report{Message: err.Error(), Type: typeOf(err)}
	}
	return output, fault, false
}

func post(url string, body []byte) {
	answer, err := http.Post(url, "application/json", bytes.NewReader(body))
	if err != nil {
		return // the next Next tells
	}
	defer answer.Body.Close()
	if refusal, _ := io.ReadAll(answer.Body); answer.StatusCode != http.StatusAccepted {
		fmt.Fprintf(os.Stderr, "runtime.go: refused: %d %s\n", answer.StatusCode, refusal)
	}
}

func main() {
	address := os.Getenv("AWS_LAMBDA_RUNTIME_API")
	if address == "" {
		address = "127.0.0.1:9001"
	}
	invocation := "http://" + address + "/2018-06-01/runtime/invocation/"
	for { // (http.Get has no timeout: a Next waits as long as no one invokes)
		answer, err := http.Get(invocation + "next")
		if err != nil {
			fmt.Fprintln(os.Stderr, "runtime.go:", err)
			os.Exit(1)
		}
		event, _ := io.ReadAll(answer.Body)
		answer.Body.Close()
		if answer.StatusCode == http.StatusForbidden { // an earlier process took the invocation that is still open here
			time.Sleep(50 * time.Millisecond)
			continue
		}
		if answer.StatusCode != http.StatusOK { // 500, the container error: the runtime should exit promptly
			return
		}
		url := invocation + answer.Header.Get("Lambda-Runtime-Aws-Request-Id")
		os.Setenv("_X_AMZN_TRACE_ID", answer.Header.Get("Lambda-Runtime-Trace-Id"))
		output, fault, panicked := call(event)
		if fault == nil {
			post(url+"/response", output)
			continue
		}
		told, _ := json.Marshal(fault)
		fmt.Fprintf(os.Stderr, "%s\n", told)
		post(url+"/error", told)
		if panicked { // as Lambda's Go library does: no one knows what state the process is in
			os.Exit(2)
		}
	}
}
