export * from "./index.js";
declare const lambdaLocal: typeof import("./index.js");
export default lambdaLocal;
