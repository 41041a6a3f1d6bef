"use strict";

// What the function, or the service for it, reported to its caller. `report` is the body; `cause` is what the handler
// threw, if it ran in this process.
class FunctionError extends Error {
  constructor(report, cause) {
    const told = report !== null && typeof report === "object";
    super(told ? `${report.errorType}: ${report.errorMessage}` : String(report), cause === undefined ? {} : { cause });
    this.name = "FunctionError";
    this.report = report;
    this.type = told ? report.errorType : undefined;
    this.trace = (told && (report.trace ?? report.stackTrace)) || [];
  }
}

module.exports = { FunctionError };
