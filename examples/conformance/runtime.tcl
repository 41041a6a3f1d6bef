#!/usr/bin/env tclsh
# A runtime in Tcl with the handler that `./lambda_local conformance runtime` expects, and nothing but Tcl's own
# commands. It relies on the kit's events, which are compact, `do` first and `value` last.
#
# usage: ../../lambda_local conformance runtime -- tclsh runtime.tcl
lassign [split $env(AWS_LAMBDA_RUNTIME_API) :] host port
set api /2018-06-01/runtime
set connection ""

proc header {name} { return [expr {[dict exists $::headers $name] ? [dict get $::headers $name] : ""}] }

proc disconnect {} {
  catch {close $::connection}
  set ::connection ""
}

proc line {} {
  if {[gets $::connection line] < 0} { error "the connection has ended" }
  return [string trimright $line "\r"]
}

proc take {count} {
  set data [read $::connection $count]
  if {[string length $data] < $count} { error "the connection has ended" }
  return $data
}

# The body of an answer that comes in chunks.
proc chunks {} {
  while {[scan [line] %x size] == 1 && $size > 0} {
    append body [take $size]
    line
  }
  while {[line] ne ""} {}
  return [expr {[info exists body] ? $body : ""}]
}

# Reads an answer: its headers are in $headers, its body in $body. Returns the status.
proc answer {} {
  set status [lindex [line] 1]
  set ::headers {}
  while {[set line [line]] ne ""} {
    regexp {^([^:]+):[ \t]*(.*?)[ \t]*$} $line - name value
    dict set ::headers [string tolower $name] $value
  }
  if {[string match 1?? $status]} { return [answer] }
  if {[header transfer-encoding] ne ""} {
    set ::body [chunks]
  } else {
    set ::body [take [expr {[header content-length] + 0}]]
  }
  if {[string tolower [header connection]] eq "close"} { disconnect }
  return $status
}

# Whether its peer has ended the connection meanwhile.
proc has_ended {} {
  fconfigure $::connection -blocking 0
  set is_over [expr {[catch {read $::connection}] || [eof $::connection]}]
  fconfigure $::connection -blocking 1
  return $is_over
}

# Sends a request on the connection that there is, or on a new one. An error if no answer comes.
proc ask {method path {content ""} {type ""}} {
  if {$::connection ne "" && [has_ended]} disconnect
  if {$::connection eq ""} {
    set ::connection [socket $::host $::port]
    fconfigure $::connection -translation binary -buffering full
  }
  set head "$method $::api/$path HTTP/1.1\r\nHost: $::host:$::port\r\nContent-Type: application/json\r\n"
  if {$type ne ""} { append head "Lambda-Runtime-Function-Error-Type: $type\r\n" }
  if {$method eq "POST"} { append head "Content-Length: [string length $content]\r\n" }
  if {[catch {
    puts -nonewline $::connection "$head\r\n$content"
    flush $::connection
    set status [answer]
  } fault]} {
    disconnect
    error $fault
  }
  if {$status == 500} { exit 1 }
  return $status
}

proc now {} { return [clock milliseconds] }

# What the handler returns for an event: response or error, and the body.
proc handled {event} {
  if {![regexp {^\{"do":"([a-z]+)"} $event - do]} { return [list response $event] }
  set value null
  if {[set at [string first {"value":} $event]] >= 0} { set value [string range $event $at+8 end-1] }
  switch $do {
    echo { return [list response $value] }
    bytes {
      binary scan [string range $value 1 end-1] cu* bytes
      return [list response \[[join $bytes ,]\]]
    }
    large { return [list response "\"[string repeat x $value]\""] }
    stream { return [list response [string map {{","} {}} [string range $value 1 end-1]]] }
    sleep {
      after $value
      return [list response $value]
    }
    context {
      set first [expr {[header lambda-runtime-deadline-ms] - [now]}]
      after $value
      return [list response [format {{"requestId":"%s","functionArn":"%s","traceId":"%s","remaining":[%d,%d]}} \
        [header lambda-runtime-aws-request-id] [header lambda-runtime-invoked-function-arn] \
        $::env(_X_AMZN_TRACE_ID) $first [expr {[header lambda-runtime-deadline-ms] - [now]}]]]
    }
    print {
      puts $value
      flush stdout
      return [list response null]
    }
    fail {
      regexp {"type":("[^"]*"),"message":(.*)\}$} $event - type message
      return [list error "{\"errorType\":$type,\"errorMessage\":$message,\"stackTrace\":\[\]}"]
    }
    exit { exit $value }
    hang { vwait forever }
  }
}

if {$env(_HANDLER) ne "conformance.handler"} {
  set report "{\"errorType\":\"Runtime.NoSuchHandler\",\"errorMessage\":\"there is no $env(_HANDLER)\"}"
  catch {ask POST init/error $report Runtime.NoSuchHandler}
  exit 1
}
fconfigure stdout -translation binary
while true {
  if {[catch {ask GET invocation/next} status]} {
    if {[catch {ask GET invocation/next} status]} { exit 1 }
  }
  if {$status != 200} {
    after 50
    continue
  }
  set request [header lambda-runtime-aws-request-id]
  set env(_X_AMZN_TRACE_ID) [header lambda-runtime-trace-id]
  lassign [handled $body] kind output
  catch {ask POST invocation/$request/$kind $output [expr {$kind eq "error" ? "Runtime.OutOfCheese" : ""}]}
}
