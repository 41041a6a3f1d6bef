#!/usr/bin/env lua5.4
-- A runtime in Lua with the handler that `./lambda_local conformance runtime` expects, and nothing but LuaSocket, as
-- Lua has no connections of its own. It relies on the kit's events, which are compact, `do` first and `value` last.
--
-- usage: ../../lambda_local conformance runtime -- lua5.4 runtime.lua
local socket = require "socket"

local api = assert(os.getenv "AWS_LAMBDA_RUNTIME_API", "AWS_LAMBDA_RUNTIME_API is not set")
local host, port = api:match "^(.*):(%d+)$"
local connection

-- A program in Lua cannot set its variables: this one is renewed for each invocation.
local variables, getenv = {}, os.getenv
function os.getenv(name) return variables[name] or getenv(name) end

local function disconnect()
  if connection then connection:close() end
  connection = nil
end

-- Whether its peer has ended the connection meanwhile.
local function has_ended()
  connection:settimeout(0)
  local _, fault = connection:receive(1)
  connection:settimeout(nil) -- a Next waits as long as no one invokes
  return fault ~= "timeout"
end

local function take(what)
  if what == 0 then return "" end
  return assert(connection:receive(what))
end

local function chunks()
  local parts = {}
  while true do
    local size = tonumber(take("*l"):match "^%x+", 16)
    if size == 0 then break end
    parts[#parts + 1] = take(size)
    take "*l"
  end
  while take "*l" ~= "" do end -- the trailers
  return table.concat(parts)
end

-- The answer that comes: its status, headers and body.
local function answer()
  local status = tonumber(take("*l"):match "^HTTP/1%.%d (%d%d%d)")
  local headers = setmetatable({}, {__index = function() return "" end})
  for line in take, "*l" do
    if line == "" then break end
    local name, value = line:match "^([^:]+):%s*(.-)%s*$"
    if name then headers[name:lower()] = value end
  end
  if status < 200 then return answer() end
  local is_chunked = headers["transfer-encoding"] ~= ""
  local body = is_chunked and chunks() or take(tonumber(headers["content-length"]) or 0)
  if headers.connection:lower() == "close" then disconnect() end
  return {status = status, headers = headers, body = body}
end

-- Sends a request on the connection that there is, or on a new one: its answer, or nil if none comes.
local function ask(method, path, content, type)
  if connection and has_ended() then disconnect() end
  if not connection then
    connection = socket.connect(host, port)
    if not connection then return nil end
    connection:setoption("tcp-nodelay", true)
  end
  local head = {method .. " /2018-06-01/runtime/" .. path .. " HTTP/1.1", "Host: " .. api}
  if content then
    head[#head + 1] = "Content-Type: application/json"
    head[#head + 1] = "Content-Length: " .. #content
  end
  if type then head[#head + 1] = "Lambda-Runtime-Function-Error-Type: " .. type end
  -- (if what is sent is cut short, the answer may say why)
  connection:send(table.concat(head, "\r\n") .. "\r\n\r\n" .. (content or ""))
  local is_there, reply = pcall(answer)
  if not is_there then
    disconnect()
    return nil
  end
  if reply.status == 500 then os.exit(1) end -- the container error
  return reply
end

local function remaining(headers)
  return tonumber(headers["lambda-runtime-deadline-ms"]) - math.floor(socket.gettime() * 1000)
end

local function pause(milliseconds) socket.sleep(tonumber(milliseconds) / 1000) end

-- Each takes the event's value as it is written, its invocation's headers and the event, and returns its output.
local actions = {
  echo = function(value) return value end,
  bytes = function(value)
    local numbers = {}
    for letter in value:sub(2, -2):gmatch "." do numbers[#numbers + 1] = letter:byte() end
    return "[" .. table.concat(numbers, ",") .. "]"
  end,
  large = function(value) return '"' .. ("x"):rep(tonumber(value)) .. '"' end,
  stream = function(value) return (value:sub(2, -2):gsub('","', "")) end,
  sleep = function(value)
    pause(value)
    return value
  end,
  context = function(value, headers)
    local first = remaining(headers)
    pause(value)
    return ('{"requestId":"%s","functionArn":"%s","traceId":"%s","remaining":[%d,%d]}'):format(
      headers["lambda-runtime-aws-request-id"], headers["lambda-runtime-invoked-function-arn"],
      os.getenv "_X_AMZN_TRACE_ID", first, remaining(headers))
  end,
  print = function(value)
    print(value)
    io.stdout:flush()
    return "null"
  end,
  fail = function(_, _, event)
    local type, message = event:match '"type":("[^"]*"),"message":(.*)}$'
    error {type = type, message = message}
  end,
  exit = function(value) os.exit(tonumber(value)) end,
  hang = function() socket.sleep(1000) end,
}

local function handler(event, headers)
  local action = actions[event:match '^{"do":"(%a+)"']
  if not action then return event end
  local at = event:find('"value":', 1, true)
  return action(at and event:sub(at + 8, -2) or "null", headers, event)
end

if os.getenv "_HANDLER" ~= "conformance.handler" then
  ask("POST", "init/error", '{"errorType":"Runtime.NoSuchHandler","errorMessage":"there is no such handler here"}',
    "Runtime.NoSuchHandler")
  os.exit(1)
end
while true do
  local next = ask("GET", "invocation/next") or ask("GET", "invocation/next") or os.exit(1)
  if next.status ~= 200 then
    pause(50)
  else
    local path = "invocation/" .. next.headers["lambda-runtime-aws-request-id"]
    variables._X_AMZN_TRACE_ID = next.headers["lambda-runtime-trace-id"]
    local is_right, output = pcall(handler, next.body, next.headers)
    if is_right then
      ask("POST", path .. "/response", output)
    else -- (what Lua itself raises is a text, with its place before it)
      local fault = type(output) == "table" and output or {type = '"LuaError"', message = ("%q"):format(output)}
      ask("POST", path .. "/error", ('{"errorType":%s,"errorMessage":%s,"stackTrace":[]}'):format(fault.type,
        fault.message), "Function.OutOfCheese")
    end
  end
end
