#!/usr/bin/env ruby
# A runtime in Ruby with the handler that `./lambda_local conformance runtime` expects, and nothing but Ruby's standard
# library.
#
# usage: ../../lambda_local conformance runtime -- ruby runtime.rb
require "json"
require "net/http"

# ---- the handler

class OutOfCheese < StandardError; end

# Texts that are streamed: what Net::HTTP reads of them at once is a chunk.
Parts = Struct.new(:texts) do
  def readpartial(_most, buffer)
    buffer.replace(texts.shift || raise(EOFError))
  end
end

# What a handler may ask of its invocation.
Context = Struct.new(:request_id, :function_arn, :deadline) do
  def remaining
    deadline - Process.clock_gettime(Process::CLOCK_REALTIME, :millisecond)
  end
end

def pause(milliseconds)
  sleep(milliseconds / 1000.0)
  milliseconds
end

def seen(context, milliseconds)
  first = context.remaining
  pause(milliseconds)
  { requestId: context.request_id, functionArn: context.function_arn, traceId: ENV["_X_AMZN_TRACE_ID"],
    remaining: [first, context.remaining] }
end

def handler(event, context)
  return event unless event.is_a?(Hash) && event.key?("do")

  value = event["value"]
  case event["do"]
  when "echo" then value
  when "bytes" then value.bytes
  when "large" then "x" * value
  when "stream" then Parts.new(value.reject(&:empty?))
  when "sleep" then pause(value)
  when "context" then seen(context, value)
  when "print" then $stdout.puts(value)
  when "fail" then raise OutOfCheese, event["message"]
  when "exit" then exit!(value)
  when "hang" then sleep
  end
end

# ---- the runtime

class Runtime
  ROOT = "/2018-06-01/runtime".freeze
  LOST = [SystemCallError, IOError, Timeout::Error, Net::HTTPBadResponse, Net::ProtocolError].freeze

  def initialize(address)
    host, port = address.split(":")
    @http = Net::HTTP.new(host, port.to_i, nil) # (nil: by no proxy)
    @http.read_timeout = nil # a Next waits as long as no one invokes
    @http.keep_alive_timeout = 3600 # a handler may work for a while
    @http.start
  end

  def run
    loop do
      invocation = @http.get("#{ROOT}/invocation/next") # (asked once more if its connection ends)
      case invocation.code
      when "200" then serve(invocation)
      when "403" then sleep 0.05 # an earlier process took the invocation that is still open here
      else exit 1 # the container error
      end
    end
  rescue *LOST => fault
    abort "runtime.rb: no next invocation: #{fault.message}"
  end

  def report(path, fault)
    told = JSON.generate({ errorMessage: fault.message.scrub, errorType: fault.class.name,
                           stackTrace: fault.backtrace || [] })
    warn told
    post("#{path}error", "Lambda-Runtime-Function-Error-Type" => "Function.#{fault.class.name}") { |to| to.body = told }
  end

  private

  def serve(invocation)
    ENV["_X_AMZN_TRACE_ID"] = invocation["Lambda-Runtime-Trace-Id"]
    id = invocation["Lambda-Runtime-Aws-Request-Id"]
    context = Context.new(id, invocation["Lambda-Runtime-Invoked-Function-Arn"],
                          invocation["Lambda-Runtime-Deadline-Ms"].to_i)
    begin
      event = JSON.parse(invocation.body.force_encoding("UTF-8"), max_nesting: false)
      output = handler(event, context)
      text = JSON.generate(output, max_nesting: 0) unless output.is_a?(Parts)
    rescue StandardError, ScriptError, SystemStackError => fault
      return report("invocation/#{id}/", fault)
    end
    text ? post("invocation/#{id}/response") { |to| to.body = text } : stream(id, output)
  end

  def stream(id, parts)
    headers = { "Lambda-Runtime-Function-Response-Mode" => "streaming", "Transfer-Encoding" => "chunked" }
    post("invocation/#{id}/response", headers) { |to| to.body_stream = parts }
  end

  def post(path, headers = {})
    request = Net::HTTP::Post.new("#{ROOT}/#{path}", { "Content-Type" => "application/json", **headers })
    yield request
    answer = @http.request(request)
    warn "runtime.rb: refused: #{answer.code} #{answer.body}" unless answer.code == "202"
    exit 1 if answer.code == "500" # the container error
  rescue *LOST => fault
    warn "runtime.rb: #{path} is lost: #{fault.message}" # the next Next tells
  end
end

class NoSuchHandler < StandardError; end

runtime = Runtime.new(ENV.fetch("AWS_LAMBDA_RUNTIME_API"))
# The handler is part of this program. So _HANDLER can only be the suite's, or the one whose Init fails.
if ENV.fetch("_HANDLER", "") != "conformance.handler"
  runtime.report("init/", NoSuchHandler.new("there is no handler #{ENV['_HANDLER']} that can be loaded"))
  exit 1
end
$stdout.sync = true
runtime.run
