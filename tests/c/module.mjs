// module.mjs: calls lapd.wasm as examples/c/first.c calls the library, and prints the same. For tests alone.
//
//     node module.mjs DIR
//
// Status 1 where the module has an import, or other exports than lapd.d.ts says.
import { readFileSync } from "node:fs";

const folder = process.argv[2];
const module = new WebAssembly.Module(readFileSync(`${folder}/lapd.wasm`));
const declarations = readFileSync(`${folder}/lapd.d.ts`, "utf8");
const declared = [...declarations.matchAll(/^    (\w+)[(:]/gm)].map((found) => found[1]);
// The places that the example at the top takes have room for their structs.
const taken = [...declarations.matchAll(/(\w+) = lapd.module_take\((\d+)n\)/g)].map((found) => [found[1], BigInt(found[2])]);
const sizes = taken.map(([name]) => BigInt(declarations.match(new RegExp(`^// lapd_${name}, (\\d+) octets:$`, "m"))?.[1] ?? 0));
const exported = WebAssembly.Module.exports(module).map((it) => it.name);
if (WebAssembly.Module.imports(module).length || declared.sort().join() !== exported.sort().join()) {
    console.error(`exports ${exported}, declared ${declared}`);
    process.exit(1);
}
if (taken.map(([name]) => name).join() !== "card,config,report" || taken.some(([, octets], at) => octets !== sizes[at])) {
    console.error(`the example takes ${taken}, the structs have ${sizes}`);
    process.exit(1);
}
// The example writes each field of a configuration, but for what is reserved.
const [, written, values] = declarations.match(/Number\(config\), (\d+)\)\.set\(\[([\d, ]+)\]\)/) ?? [];
const basic = (values ?? "").split(", ").map(Number);
const [, rows] = declarations.match(/^\/\/ lapd_config, \d+ octets:\n((?:\/\/  .*\n)+)/m) ?? [];
const own = [...(rows ?? "").matchAll(/ uint16_t (\w+)$/gm)].map((found) => found[1]);
if (Number(written) !== own.length || own.length < 14 || basic.length !== own.length) {
    console.error(`the example writes ${basic.length} fields in ${written} places, and a configuration has ${own}`);
    process.exit(1);
}
const lapd = new WebAssembly.Instance(module).exports;
const memory = (at, length) => new Uint8Array(lapd.memory.buffer, Number(at), length);
// A place is 0, whatever was in it.
const used = lapd.module_take(64n);
memory(used, 64).fill(0xff);
lapd.module_give(used);
const [card, config, report, place] = [...sizes, 16n].map((octets) => lapd.module_take(octets));
if (card !== used || memory(card, Number(sizes[0])).some((octet) => octet !== 0)) {
    console.error(`a place at ${card}, after one at ${used}: ${memory(card, Number(sizes[0]))}`);
    process.exit(1);
}
new Uint16Array(lapd.memory.buffer, Number(config), basic.length).set(basic);
const want = (status, wanted = 0) => {
    if (status !== wanted) throw new Error(`status ${status}`);
};
want(lapd.lapd_lines(card, place), 11);
want(lapd.lapd_card_start(card, config));
want(lapd.lapd_card_start(card, config), 13);
want(lapd.lapd_request(card, 0, 5, 0, 64, place, 0n, report));
for (const octet of [0x7e, 0x00, 0x81, 0xef, 0x50, 0xb1, 0xfd, 0xfc]) {
    want(lapd.lapd_octet(card, 0, octet, report));
    for (let at = 8; at < 8 + 8 * memory(report, 1)[0]; at += 8) {
        const [note, , tei] = memory(report + BigInt(at), 3);
        console.log(`0 ${note === 1 ? "establish-indication" : `note ${note}`} ${tei}`);
    }
}
let sent = "";
for (let i = 0; i < 7; i++) {
    want(lapd.lapd_pull(card, 0, place, report));
    sent += memory(place, 1)[0].toString(16).toUpperCase().padStart(2, "0");
}
console.log(`0 tx ${sent}`);
const number = (call) => {
    want(call(card, place));
    return new DataView(lapd.memory.buffer).getUint32(Number(place), true);
};
console.log(`stored ${number(lapd.lapd_stored)} limit ${number(lapd.lapd_limit)}`);
want(lapd.lapd_card_free(card));
for (const at of [card, config, report, place]) lapd.module_give(at);
