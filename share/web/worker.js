// The worker in which the program runs. A message has the compiled module and one call; the answers
// are what the program writes to standard error meanwhile, and then its result.

import { run } from "./engine/runtime.js";

onmessage = ({ data: { module, call } }) => {
  const wrote = (file, bytes) => file === 2 && postMessage({ wrote: bytes });
  postMessage({ done: run(module, { ...call, wrote }) });
};
