// Runs a module of area.c and words.c, which imports the memory of the second: node examples/both.js MODULE
const memory = new WebAssembly.Memory({ initial: 2 });
WebAssembly.instantiate(require('fs').readFileSync(process.argv[2]), { env: { memory } })
    .then(({ instance: { exports } }) => console.log(exports.area(6, 7), exports.asked(), exports.words()));
