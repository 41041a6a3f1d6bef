// The same for `import`.
import lambdaLocal from "./index.js";

export const { start, withService, Service, FunctionError, ReachesAWS } = lambdaLocal;
export default lambdaLocal;
