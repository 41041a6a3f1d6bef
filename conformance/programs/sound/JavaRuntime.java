// A runtime in the shape of Lambda's Java client, with the kit's handler in it: a report of a nested class, a header
// that names the category alone. The argument `new` takes java.net.http, any other one HttpURLConnection. It reads the
// little JSON that it needs by itself, and keeps numbers as they are written.
import java.io.IOException;
import java.io.InputStream;
import java.net.HttpURLConnection;
import java.net.URI;
import java.net.URL;
import java.net.http.HttpClient;
import java.net.http.HttpRequest;
import java.net.http.HttpResponse;
import java.nio.charset.StandardCharsets;
import java.util.LinkedHashMap;
import java.util.Map;

public class JavaRuntime {
  static class OutOfCheese extends Exception {
    OutOfCheese(String message) { super(message); }
  }

  record Reply(int status, Map<String, String> headers, String body) {
    String header(String name) { return headers.get(name.toLowerCase()); }
  }

  static final String API = "http://" + System.getenv("AWS_LAMBDA_RUNTIME_API") + "/2018-06-01/runtime/";
  static boolean isNew;
  static HttpClient client;
  static String trace = "";

  static Reply ask(String method, String path, String body, String errorType) throws Exception {
    return isNew ? byClient(method, path, body, errorType) : byConnection(method, path, body, errorType);
  }

  static Reply byClient(String method, String path, String body, String errorType) throws Exception {
    HttpRequest.Builder request = HttpRequest.newBuilder(URI.create(API + path));
    if (errorType != null) request.header("Lambda-Runtime-Function-Error-Type", errorType);
    request.method(method, body == null ? HttpRequest.BodyPublishers.noBody()
        : HttpRequest.BodyPublishers.ofString(body));
    HttpResponse<String> reply = client.send(request.build(), HttpResponse.BodyHandlers.ofString());
    Map<String, String> headers = new LinkedHashMap<>();
    reply.headers().map().forEach((name, values) -> headers.put(name.toLowerCase(), values.get(0)));
    return new Reply(reply.statusCode(), headers, reply.body());
  }

  static Reply byConnection(String method, String path, String body, String errorType) throws IOException {
    HttpURLConnection connection = (HttpURLConnection) new URL(API + path).openConnection();
    connection.setRequestMethod(method);
    if (errorType != null) connection.setRequestProperty("Lambda-Runtime-Function-Error-Type", errorType);
    if (body != null) {
      byte[] bytes = body.getBytes(StandardCharsets.UTF_8);
      connection.setDoOutput(true);
      connection.setFixedLengthStreamingMode(bytes.length);
      connection.getOutputStream().write(bytes);
    }
    int status = connection.getResponseCode();
    Map<String, String> headers = new LinkedHashMap<>();
    connection.getHeaderFields().forEach((name, values) -> {
      if (name != null) headers.put(name.toLowerCase(), values.get(0));
    });
    try (InputStream stream = status < 400 ? connection.getInputStream() : connection.getErrorStream()) {
      byte[] read = stream == null ? new byte[0] : stream.readAllBytes();
      return new Reply(status, headers, new String(read, StandardCharsets.UTF_8));
    }
  }

  // ---- the members of an event: `do` comes first, `value` or `message` last

  static String after(String event, String name) {
    int at = event.indexOf("\"" + name + "\":");
    return at < 0 ? null : event.substring(at + name.length() + 3, event.length() - 1);
  }

  static String text(String json) {
    StringBuilder made = new StringBuilder();
    for (int at = 1; at < json.length() - 1; at++) {
      char letter = json.charAt(at);
      if (letter != '\\') {
        made.append(letter);
        continue;
      }
      char kind = json.charAt(++at);
      int place = "nrtbf".indexOf(kind);
      if (kind == 'u') {
        made.append((char) Integer.parseInt(json.substring(at + 1, at + 5), 16));
        at += 4;
      } else {
        made.append(place < 0 ? kind : "\n\r\t\b\f".charAt(place));
      }
    }
    return made.toString();
  }

  static String quoted(String text) {
    StringBuilder made = new StringBuilder("\"");
    for (char letter : text.toCharArray()) {
      if (letter == '"' || letter == '\\') made.append('\\').append(letter);
      else if (letter < ' ') made.append(String.format("\\u%04x", (int) letter));
      else made.append(letter);
    }
    return made.append('"').toString();
  }

  static String handle(String event, Reply invocation) throws Exception {
    if (!event.startsWith("{\"do\":\"")) return event;
    String action = event.substring(7, event.indexOf('"', 7)), value = after(event, "value");
    switch (action) {
      case "echo": return value == null ? "null" : value;
      case "large": return "\"" + "x".repeat(Integer.parseInt(value)) + "\"";
      case "stream": return quoted(String.join("", value.substring(2, value.length() - 2).split("\",\"")));
      case "bytes": {
        StringBuilder made = new StringBuilder();
        for (byte each : text(value).getBytes(StandardCharsets.UTF_8)) made.append(",").append(each & 255);
        return "[" + (made.length() > 0 ? made.substring(1) : "") + "]";
      }
      case "sleep":
        Thread.sleep(Long.parseLong(value));
        return value;
      case "context": {
        long deadline = Long.parseLong(invocation.header("lambda-runtime-deadline-ms"));
        long first = deadline - System.currentTimeMillis();
        Thread.sleep(Long.parseLong(value));
        return String.format("{\"requestId\":%s,\"functionArn\":%s,\"traceId\":%s,\"remaining\":[%d,%d]}",
            quoted(invocation.header("lambda-runtime-aws-request-id")),
            quoted(invocation.header("lambda-runtime-invoked-function-arn")), quoted(trace), first,
            deadline - System.currentTimeMillis());
      }
      case "print":
        System.out.println(text(value));
        return "null";
      case "fail": throw new OutOfCheese(text(after(event, "message")));
      case "exit": Runtime.getRuntime().halt(Integer.parseInt(value));
      default:
        Thread.sleep(1_000_000);
        return "null";
    }
  }

  static String report(Exception fault) {
    StringBuilder lines = new StringBuilder();
    for (StackTraceElement line : fault.getStackTrace()) lines.append(",").append(quoted(line.toString()));
    return String.format("{\"errorMessage\":%s,\"errorType\":%s,\"stackTrace\":[%s]}", quoted(fault.getMessage()),
        quoted(fault.getClass().getName()), lines.length() > 0 ? lines.substring(1) : "");
  }

  public static void main(String[] words) throws Exception {
    isNew = words.length > 0 && words[0].equals("new");
    if (isNew) client = HttpClient.newBuilder().version(HttpClient.Version.HTTP_1_1).build();
    if (!"conformance.handler".equals(System.getenv("_HANDLER"))) {
      Exception fault = new Exception("there is no handler " + System.getenv("_HANDLER"));
      ask("POST", "init/error", report(fault), "Runtime.NoHandler");
      System.exit(1);
    }
    while (true) {
      Reply next = ask("GET", "invocation/next", null, null);
      if (next.status() == 403) {
        Thread.sleep(50);
        continue;
      }
      if (next.status() != 200) System.exit(1);
      trace = next.header("lambda-runtime-trace-id") == null ? "" : next.header("lambda-runtime-trace-id");
      String path = "invocation/" + next.header("lambda-runtime-aws-request-id") + "/";
      Reply reply;
      try {
        reply = ask("POST", path + "response", handle(next.body(), next), null);
      } catch (OutOfCheese fault) {
        reply = ask("POST", path + "error", report(fault), "Runtime.UserException");
      }
      if (reply.status() == 500) System.exit(1);
    }
  }
}
