// What the page is told beside its script: the words, and the engine's calls, structs, ranges and limits.
const WORDS = JSON.parse(document.getElementById('words').textContent);
const INTERFACE = JSON.parse(document.getElementById('interface').textContent);
