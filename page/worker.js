// @ts-check
// Keeps the files of a served page, so it opens without the server. It answers with the kept files, and after the page
// has opened fetches all again for the next time.
"use strict";

const KEPT = "noriladle";

// All files that the page names, or none if one is missing.
async function keepFiles() {
  const page = await fetch("index.html", { cache: "no-cache" }),
    names = [...(await page.clone().text()).matchAll(/(?:src|href)="([^"#:]+)"/g)].map(([, name]) => name);
  const files = await Promise.all([...names, "manifest.json", "icon-512.png"]
    .map(async (name) => /** @type {[string, Response]} */ ([name, await fetch(name, { cache: "no-cache" })])));
  if (!page.ok || files.some(([, { ok }]) => !ok)) throw new Error("a file of the page is missing");
  const kept = await caches.open(KEPT);
  await Promise.all([kept.put("index.html", page), ...files.map(([name, file]) => kept.put(name, file))]);
}

async function answer(request) {
  const isPage = request.mode === "navigate", kept = await caches.open(KEPT),
    found = await kept.match(isPage ? "index.html" : request, { ignoreSearch: true });
  return found ?? fetch(request);
}

addEventListener("install", (event) => { skipWaiting(); event.waitUntil(keepFiles()); });
addEventListener("activate", (event) => event.waitUntil(clients.claim()));
addEventListener("fetch", (event) => {
  event.respondWith(answer(event.request));
  if (event.request.mode === "navigate") event.waitUntil(keepFiles().catch(() => {}));
});
