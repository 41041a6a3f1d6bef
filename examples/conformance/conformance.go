// A runtime in Go with the handler that `./lambda_local conformance runtime` expects, and nothing but Go's
// standard library.
//
// usage: go build -o /tmp/bootstrap conformance.go && ./lambda_local conformance runtime -- /tmp/bootstrap
package main

import (
	"bytes"
	"encoding/json"
	"fmt"
	"io"
	"net/http"
	"os"
	"runtime/debug"
	"strconv"
	"strings"
	"time"
)

// ---- the handler

type event struct {
	Do      string
	Value   json.RawMessage
	Type    string
	Message string
}

// What a handler may ask of its invocation.
type invocation struct {
	header http.Header
}

func (of invocation) remaining() int64 {
	deadline, _ := strconv.ParseInt(of.header.Get("Lambda-Runtime-Deadline-Ms"), 10, 64)
	return deadline - time.Now().UnixMilli()
}

// The kit's `fail` has this type.
type OutOfCheese struct{ message string }

func (fault OutOfCheese) Error() string { return fault.message }

// Texts that are streamed.
type parts []string

func handler(payload json.RawMessage, of invocation) (any, error) {
	var given event
	if json.Unmarshal(payload, &given) != nil || given.Do == "" {
		return payload, nil
	}
	number, _ := strconv.Atoi(string(given.Value))
	pause := func() { time.Sleep(time.Duration(number) * time.Millisecond) }
	switch given.Do {
	case "echo":
		if given.Value == nil {
			return nil, nil
		}
		return given.Value, nil
	case "bytes":
		var text string
		err := json.Unmarshal(given.Value, &text)
		numbers := []int{}
		for _, each := range []byte(text) {
			numbers = append(numbers, int(each))
		}
		return numbers, err
	case "large":
		return strings.Repeat("x", number), nil
	case "stream":
		var texts parts
		err := json.Unmarshal(given.Value, &texts)
		return texts, err
	case "sleep":
		pause()
		return number, nil
	case "context":
		first := of.remaining()
		pause()
		return map[string]any{
			"requestId":   of.header.Get("Lambda-Runtime-Aws-Request-Id"),
			"functionArn": of.header.Get("Lambda-Runtime-Invoked-Function-Arn"),
			"remaining":   []int64{first, of.remaining()},
			"traceId":     os.Getenv("_X_AMZN_TRACE_ID"),
		}, nil
	case "print":
		var text string
		err := json.Unmarshal(given.Value, &text)
		fmt.Println(text)
		return nil, err
	case "fail":
		return nil, OutOfCheese{given.Message}
	case "exit":
		os.Exit(number)
	case "hang":
		time.Sleep(time.Hour)
	}
	return nil, fmt.Errorf("do is not one of the kit's: %s", given.Do)
}

// ---- the runtime

type report struct {
	Message string   `json:"errorMessage"`
	Type    string   `json:"errorType"`
	Stack   []string `json:"stackTrace"`
}

func reportOf(fault error) []byte {
	told, _ := json.Marshal(report{fault.Error(), typeOf(fault), strings.Split(string(debug.Stack()), "\n")})
	return told
}

func post(url string, body io.Reader, headers map[string]string) {
	request, _ := http.NewRequest("POST", url, body)
	for name, value := range headers {
		request.Header.Set(name, value)
	}
	answer, err := http.DefaultClient.Do(request)
	if err != nil {
		return // the next Next tells
	}
	defer answer.Body.Close()
	if refusal, _ := io.ReadAll(answer.Body); answer.StatusCode != http.StatusAccepted {
		fmt.Fprintf(os.Stderr, "conformance.go: refused: %d %s\n", answer.StatusCode, refusal)
	}
	if answer.StatusCode == http.StatusInternalServerError { // the container error: the runtime should exit promptly
		os.Exit(0)
	}
}

func postError(url string, fault error) {
	told := reportOf(fault)
	fmt.Fprintf(os.Stderr, "%s\n", told)
	post(url, bytes.NewReader(told), map[string]string{"Lambda-Runtime-Function-Error-Type": "Function." + typeOf(fault)})
}

func typeOf(fault error) string {
	name := fmt.Sprintf("%T", fault)
	return name[strings.LastIndex(name, ".")+1:]
}

func respond(url string, output any) {
	if texts, ok := output.(parts); ok {
		reader, writer := io.Pipe() // (a body of unknown length is sent in chunks)
		go func() {
			for _, text := range texts {
				io.WriteString(writer, text)
			}
			writer.Close()
		}()
		post(url+"/response", reader, map[string]string{"Lambda-Runtime-Function-Response-Mode": "streaming"})
		return
	}
	body, err := json.Marshal(output)
	if err != nil {
		postError(url+"/error", err)
		return
	}
	post(url+"/response", bytes.NewReader(body), nil)
}

type InitFailed struct{ error }

func main() {
	api := "http://" + os.Getenv("AWS_LAMBDA_RUNTIME_API") + "/2018-06-01/runtime/"
	// The handler is compiled in. So _HANDLER can only be the kit's, or the one whose Init fails.
	if name := os.Getenv("_HANDLER"); name != "" && name != "conformance.handler" {
		postError(api+"init/error", InitFailed{fmt.Errorf("there is no handler %s that can be loaded", name)})
		os.Exit(1)
	}
	for { // (http.Get has no timeout: a Next waits as long as no one invokes)
		answer, err := http.Get(api + "invocation/next")
		if err != nil {
			fmt.Fprintln(os.Stderr, "conformance.go:", err)
			os.Exit(1)
		}
		payload, _ := io.ReadAll(answer.Body)
		answer.Body.Close()
		if answer.StatusCode == http.StatusForbidden { // an earlier process took the invocation that is still open here
			time.Sleep(50 * time.Millisecond)
			continue
		}
		if answer.StatusCode != http.StatusOK { // 500, the container error: the runtime should exit promptly
			return
		}
		url := api + "invocation/" + answer.Header.Get("Lambda-Runtime-Aws-Request-Id")
		os.Setenv("_X_AMZN_TRACE_ID", answer.Header.Get("Lambda-Runtime-Trace-Id"))
		if output, err := handler(payload, invocation{answer.Header}); err != nil {
			postError(url+"/error", err)
		} else {
			respond(url, output)
		}
	}
}
