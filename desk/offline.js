// Keeps the page's own files, so that it opens without a server too. The server's are taken where it answers.

const CACHE = "gulxinett-desk";
const FILES = [
  "./", "desk.css", "main.js", "answers.js", "audit.js", "files.js", "photo.js", "state.js", "storage.js", "take.js", "view.js", "words.js",
  ...["gulxinett.js", "memory.js", "recorder.js", "gulxinett.wasm"].map((name) => `../bindings/js/${name}`),
];

self.addEventListener("install", (event) => event.waitUntil(caches.open(CACHE).then((cache) => cache.addAll(FILES))));

self.addEventListener("fetch", (event) => {
  if (event.request.method === "GET") event.respondWith(answered(event.request));
});

async function answered(request) {
  const cache = await caches.open(CACHE);
  try {
    const answer = await fetch(request);
    if (answer.ok) await cache.put(request, answer.clone());
    return answer;
  } catch (reason) {
    const kept = await cache.match(request, { ignoreSearch: true });
    if (kept) return kept;
    throw reason;
  }
}
