// Runs a module of work.c: node examples/work.js MODULE
WebAssembly.instantiate(require('fs').readFileSync(process.argv[2]))
    .then(({ instance }) => console.log(instance.exports.run(200000) >>> 0));
