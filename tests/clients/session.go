// A session by go-dap over a run file, started by tests/dap:
//
//	GO111MODULE=off GOPATH=/usr/share/gocode go run session.go ADAPTER EBPF FILE
//
// Each message of the adapter has to be one of the protocol's types, without a field that the protocol doesn't
// have. It prints a line for each stop and for each response that it looks into.
package main

import (
	"bufio"
	"bytes"
	"encoding/json"
	"fmt"
	"io"
	"os"
	"os/exec"
	"reflect"

	"github.com/google/go-dap"
)

type client struct {
	in  io.Writer
	out *bufio.Reader
	seq int
	// Events that came while a response was waited for.
	events []dap.EventMessage
}

func fail(format string, words ...interface{}) {
	fmt.Printf(format+"\n", words...)
	os.Exit(1)
}

// next reads a message, and looks that it has the fields of its type and no others.
func (c *client) next() dap.Message {
	content, err := dap.ReadBaseMessage(c.out)
	if err != nil {
		fail("no message: %v", err)
	}
	message, err := dap.DecodeProtocolMessage(content)
	if err != nil {
		fail("%v: %s", err, content)
	}
	strict := json.NewDecoder(bytes.NewReader(content))
	strict.DisallowUnknownFields()
	if err := strict.Decode(reflect.New(reflect.TypeOf(message).Elem()).Interface()); err != nil {
		fail("%v: %s", err, content)
	}
	return message
}

func (c *client) request(command string) dap.Request {
	c.seq++
	return dap.Request{ProtocolMessage: dap.ProtocolMessage{Seq: c.seq, Type: "request"}, Command: command}
}

// ask sends a request, and returns its response.
func (c *client) ask(request dap.Message) dap.Message {
	if err := dap.WriteProtocolMessage(c.in, request); err != nil {
		fail("not sent: %v", err)
	}
	for {
		switch message := c.next().(type) {
		case dap.ResponseMessage:
			if !message.GetResponse().Success {
				fail("%s: %s", message.GetResponse().Command, message.GetResponse().Message)
			}
			return message
		case dap.EventMessage:
			c.events = append(c.events, message)
		}
	}
}

// event returns the next event of this name.
func (c *client) event(name string) dap.EventMessage {
	for {
		for len(c.events) > 0 {
			event := c.events[0]
			c.events = c.events[1:]
			if event.GetEvent().Event == name {
				return event
			}
		}
		if event, is := c.next().(dap.EventMessage); is {
			c.events = append(c.events, event)
		}
	}
}

func (c *client) stop() {
	event := c.event("stopped").(*dap.StoppedEvent)
	fmt.Printf("stopped: %s, thread %d\n", event.Body.Reason, event.Body.ThreadId)
}

func (c *client) frame(thread int) dap.StackFrame {
	request := &dap.StackTraceRequest{Request: c.request("stackTrace"), Arguments: dap.StackTraceArguments{ThreadId: thread}}
	response := c.ask(request).(*dap.StackTraceResponse)
	if len(response.Body.StackFrames) == 0 {
		fail("thread %d has no frame", thread)
	}
	frame := response.Body.StackFrames[0]
	fmt.Printf("thread %d: %s, line %d\n", thread, frame.Name, frame.Line)
	return frame
}

func main() {
	process := exec.Command(os.Args[1], "--ebpf", os.Args[2])
	in, _ := process.StdinPipe()
	out, _ := process.StdoutPipe()
	if err := process.Start(); err != nil {
		fail("%v", err)
	}
	c := &client{in: in, out: bufio.NewReader(out)}

	c.ask(&dap.InitializeRequest{Request: c.request("initialize"), Arguments: dap.InitializeRequestArguments{AdapterID: "ebpf", LinesStartAt1: true}})
	launch, _ := json.Marshal(map[string]interface{}{"program": os.Args[3]})
	c.ask(&dap.LaunchRequest{Request: c.request("launch"), Arguments: launch})
	c.event("initialized")
	breakpoints := dap.SetBreakpointsArguments{Source: dap.Source{Path: os.Args[3]}, Breakpoints: []dap.SourceBreakpoint{{Line: 22}}}
	set := c.ask(&dap.SetBreakpointsRequest{Request: c.request("setBreakpoints"), Arguments: breakpoints}).(*dap.SetBreakpointsResponse)
	fmt.Printf("breakpoint: %v, line %d\n", set.Body.Breakpoints[0].Verified, set.Body.Breakpoints[0].Line)
	filters := dap.SetExceptionBreakpointsArguments{Filters: []string{"fault"}}
	c.ask(&dap.SetExceptionBreakpointsRequest{Request: c.request("setExceptionBreakpoints"), Arguments: filters})
	c.ask(&dap.ConfigurationDoneRequest{Request: c.request("configurationDone")})
	c.stop()

	threads := c.ask(&dap.ThreadsRequest{Request: c.request("threads")}).(*dap.ThreadsResponse)
	fmt.Printf("threads: %d\n", len(threads.Body.Threads))
	c.ask(&dap.ContinueRequest{Request: c.request("continue"), Arguments: dap.ContinueArguments{ThreadId: 1}})
	c.stop()
	frame := c.frame(1)
	scopes := c.ask(&dap.ScopesRequest{Request: c.request("scopes"), Arguments: dap.ScopesArguments{FrameId: frame.Id}}).(*dap.ScopesResponse)
	for _, scope := range scopes.Body.Scopes {
		request := &dap.VariablesRequest{Request: c.request("variables"), Arguments: dap.VariablesArguments{VariablesReference: scope.VariablesReference}}
		variables := c.ask(request).(*dap.VariablesResponse)
		fmt.Printf("%s: %d\n", scope.Name, len(variables.Body.Variables))
	}
	c.ask(&dap.StepInRequest{Request: c.request("stepIn"), Arguments: dap.StepInArguments{ThreadId: 1}})
	c.stop()
	c.frame(1)
	c.ask(&dap.StepBackRequest{Request: c.request("stepBack"), Arguments: dap.StepBackArguments{ThreadId: 1}})
	c.stop()
	c.frame(1)
	code := dap.DisassembleArguments{MemoryReference: frame.InstructionPointerReference, InstructionOffset: -2, InstructionCount: 3}
	listed := c.ask(&dap.DisassembleRequest{Request: c.request("disassemble"), Arguments: code}).(*dap.DisassembleResponse)
	for _, it := range listed.Body.Instructions {
		fmt.Println(it.Instruction)
	}
	value := dap.EvaluateArguments{Expression: "counter[0]", Context: "watch"}
	result := c.ask(&dap.EvaluateRequest{Request: c.request("evaluate"), Arguments: value}).(*dap.EvaluateResponse)
	fmt.Printf("counter[0] = %s\n", result.Body.Result)
	c.ask(&dap.DisconnectRequest{Request: c.request("disconnect")})
	if err := process.Wait(); err != nil {
		fail("the adapter ended with %v", err)
	}
	fmt.Println("ended")
}
