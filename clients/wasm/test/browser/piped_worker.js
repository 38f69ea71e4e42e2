/** The worker with `weblocks run` in the module's place: each line is sent to the test, which has the program. */

import { Service } from "../../service.js";

function post(path, text) {
  const request = new XMLHttpRequest();
  request.open("POST", path, false);
  request.send(text);
  if (request.status !== 200) throw new Error(`the program answered with status ${request.status}`);
  return request.responseText;
}

function makeEngine() {
  const number = post("/engines", "");
  return { answer: (line) => post(`/engine?number=${number}`, line) };
}

const service = new Service(makeEngine);

globalThis.onconnect = ({ ports: [port] }) => service.serve(port);
