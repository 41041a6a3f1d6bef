/** What a handler may ask of its invocation, as Lambda's Node runtime has it. */
export interface Context {
  callbackWaitsForEmptyEventLoop: boolean;
  readonly functionName: string;
  readonly functionVersion: string;
  readonly invokedFunctionArn: string;
  readonly memoryLimitInMB: string;
  readonly awsRequestId: string;
  readonly logGroupName: string;
  readonly logStreamName: string;
  readonly clientContext: undefined;
  readonly identity: undefined;
  getRemainingTimeInMillis(): number;
  done(fault?: unknown, output?: unknown): void;
  succeed(output: unknown): void;
  fail(fault: unknown): void;
}

export type Callback = (fault?: unknown, output?: unknown) => void;

/** A handler, as it is deployed. One that returns no promise answers by its callback or its context. */
export type Handler = (event: any, context: any, callback: any) => unknown;

/** A function: its handler, and members of a configuration (docs/formats.md). */
export interface FunctionMembers {
  handler: Handler;
  /** Seconds, 1 to 900 (3). */
  timeout?: number;
  /** How many invocations it handles at once, 1 to 256 (1). */
  environments?: number;
  /** Its reserved concurrency, at most its environments. */
  reserved?: number;
  /** The memory, in MB, that its context and variables name (128). */
  memory?: number;
  /** Environment variables of this process while the service runs. */
  variables?: Record<string, string | number | boolean>;
  /** The ports of its environments, 0 for a free one. */
  ports?: number[];
}

export type Functions = Record<string, Handler | FunctionMembers>;

/** An UP.json, a template of SAM, CDK or Serverless, or a folder with one: its functions run in their own processes. */
export interface File {
  file: string;
}

export interface Options {
  /** Takes asynchronous invocations (`event`): true, or the members of `asynchronous` of UP.json (docs/asynchronous.md). */
  asynchronous?: boolean | Record<string, unknown>;
  /** Leaves credentials and region as they are, and lets requests to AWS through. */
  keepCredentials?: boolean;
  /** Makes the same request identifiers each time. */
  salt?: number;
  /** The program that serves, in place of the released one. */
  program?: string;
}

export interface Stats {
  admitted: number;
  entries: number;
  failed: number;
  inFlight: number;
  throttled: number;
}

/** How far an advance goes: the sum of these, from 1 millisecond. */
export interface Advance {
  milliseconds?: number;
  seconds?: number;
  minutes?: number;
  hours?: number;
  days?: number;
}

/** The clock of a service (docs/trouble.md). Moments are milliseconds since 1970. */
export interface Clock {
  /** What it reads. */
  now(): Promise<number>;
  isPaused(): Promise<boolean>;
  /** Moves it forward; what is due by then has happened, or begun, once this is done. Gives what it reads then. */
  advance(by: Advance): Promise<number>;
  /** Stops it; nothing becomes due until it goes on or is moved. */
  pause(): Promise<number>;
  /** Lets it go on from where it stood. */
  resume(): Promise<number>;
  /** Does this while it is paused; after it, it goes on, unless it was paused before. */
  paused<Output>(work: (clock: Clock) => Output | Promise<Output>): Promise<Output>;
}

/** What a caller gets of a function that has failed. */
export interface Report {
  errorType: string;
  errorMessage: string;
  [member: string]: unknown;
}

/** A service that runs. */
export class Service {
  private constructor();
  /** Its address, as for AWS_ENDPOINT_URL_LAMBDA. */
  readonly endpointUrl: string;
  /** The Function URLs of a file's functions, by their names. */
  readonly urls: Readonly<Record<string, string>>;
  /** The line with its counts, once it was stopped. */
  readonly counts?: string;
  /**
   * What the function returned. It is rejected with a FunctionError if the function failed or the service refused. A
   * throttle is tried again for `patience` milliseconds (2000).
   */
  invoke<Output = any>(name: string, event?: unknown, options?: { patience?: number }): Promise<Output>;
  /** Invokes it asynchronously: the service keeps the event, and tries it again if it fails. */
  event(name: string, event?: unknown): Promise<void>;
  /** Its clock. */
  readonly clock: Clock;
  /** Does this while the function's reservation is 0: its callers get 429. */
  throttled<Output>(name: string, work: () => Output | Promise<Output>): Promise<Output>;
  /** Invokes it and lets its time go by, without its handler; the clock is moved. Gives the report its caller gets. */
  timesOut(name: string, event?: unknown): Promise<Report>;
  /** Invokes it with a runtime that ends, without its handler. Gives the report that its caller gets. */
  crashes(name: string, event?: unknown): Promise<Report>;
  /** Ends its environments once they are idle, so that the next invocations find new ones. Gives how many there were. */
  cold(name: string): Promise<number>;
  /**
   * Ends its environments, and has its next Init that an invocation waits for take so many seconds of the clock, up to
   * 900. More than 10 time out. For handlers in this process.
   */
  slowInit(name: string, seconds: number): Promise<void>;
  /** The counts so far. */
  stats(): Promise<Stats>;
  /** The text of the history; after the stop the whole of it. */
  history(): Promise<string>;
  /** What happened, entry by entry (docs/trace.md). */
  trace(): Promise<Array<Record<string, any>>>;
  /** What happened, as lines. It needs Python 3.9. */
  timeline(): Promise<string>;
  /** Whether it was stopped, or has ended. */
  hasEnded(): boolean;
  /** Stops it in order, and checks that its history replays to its own answers. */
  stop(): Promise<void>;
}

/** What the function, or the service for it, reported. `cause` is what a handler in this process threw. */
export class FunctionError extends Error {
  readonly name: "FunctionError";
  /** Its errorType. */
  readonly type?: string;
  /** The lines of its trace. */
  readonly trace: string[];
  /** The body of the report. */
  readonly report: any;
  readonly cause?: unknown;
}

/** A request to AWS that was not sent. */
export class ReachesAWS extends Error {
  readonly name: "ReachesAWS";
  readonly code: "ERR_REACHES_AWS";
  readonly host: string;
}

/** Starts a service of handlers in this process, or of a file's functions in processes. */
export function start(given: Functions | File, options?: Options): Promise<Service>;

/**
 * Starts a service, gives it to a test, and stops it. If the test fails, the message of its error has the history and
 * the timeline.
 */
export function withService<Result>(
  given: Functions | File, test: (service: Service) => Promise<Result>): Promise<Result>;
export function withService<Result>(
  given: Functions | File, options: Options, test: (service: Service) => Promise<Result>): Promise<Result>;
