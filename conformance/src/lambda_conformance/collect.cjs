// Has Node collect its garbage now and then, where memory is judged: what it then holds is what it keeps.
"use strict";
require("node:v8").setFlagsFromString("--expose-gc");
const collect = require("node:vm").runInNewContext("gc");
setInterval(collect, 300).unref();
