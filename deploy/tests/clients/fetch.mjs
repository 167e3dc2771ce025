// Node's clients: fetch.mjs MODE URL. Prints the status and the milliseconds of each request, as JSON.
// MODE: fetch, agent (http.Agent with keep-alive), undici (Debian's node-undici, two pools), or expect (a body on the event 'continue').
import http from "node:http";
import {createRequire} from "node:module";

const [mode, url] = process.argv.slice(2);
const headers = {"Register-Party": "1", "Register-Role": "stateAdministrator"};
const agents = [new http.Agent({keepAlive: true}), new http.Agent({keepAlive: true})];

function byAgent(agent) {
    return new Promise((resolve, reject) => {
        const request = http.get(url, {agent, headers}, (reply) => {
            reply.resume();
            reply.on("end", () => resolve(reply.statusCode));
        });
        request.on("error", reject);
    });
}

function undiciPools() {
    const undici = createRequire(import.meta.url)("undici");
    const base = new URL(url);
    const pools = [new undici.Pool(base.origin), new undici.Pool(base.origin)];
    return async (number) => {
        const reply = await pools[number % 2].request({path: base.pathname, method: "GET", headers});
        await reply.body.text();
        return reply.statusCode;
    };
}

async function byFetch() {
    const reply = await fetch(url, {headers});
    await reply.text();
    return reply.status;
}

function expectContinue() {
    return new Promise((resolve) => {
        const body = JSON.stringify({kind: "naturalPerson", name: "Node"});
        const fields = {...headers, "Expect": "100-continue", "Content-Length": body.length};
        const request = http.request(url, {method: "POST", headers: fields}, (reply) => resolve(`status ${reply.statusCode}`));
        request.on("continue", () => request.end(body));
        request.on("error", (error) => resolve(error.message));
        request.flushHeaders();
    });
}

if (mode === "expect") {
    console.log(await expectContinue());
} else {
    const send = mode === "fetch" ? byFetch : mode === "undici" ? undiciPools() : (number) => byAgent(agents[number % 2]);
    const found = [];
    const timed = async (number) => {
        const began = performance.now();
        const status = await send(number);
        found.push([status, performance.now() - began]);
    };
    await timed(0);     // the first request loads the client
    found.length = 0;
    for (let number = 0; number < 50; number += 1) {
        await timed(number);
    }
    for (let round = 0; round < 10; round += 1) {
        await Promise.all([0, 1, 2, 3, 4].map(timed));
    }
    console.log(JSON.stringify(found));
    process.exit(0);
}
