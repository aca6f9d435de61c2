// Keeps plan.html on a phone or a computer that opened it from a server, so that it opens without a
// network. The kept page is shown at once; a newer one is fetched meanwhile, and shown next time.

const PAGE = registration.scope;
const KEPT = [PAGE, new URL("plan.webmanifest", PAGE).href];
const NAME = `plan ${PAGE}`;

const added = async () => {
  const cache = await caches.open(NAME);
  await cache.addAll(KEPT.map((address) => new Request(address, { cache: "no-cache" })));
  await skipWaiting();
};

async function fetched(cache, address) {
  const response = await fetch(address, { cache: "no-cache" });
  if (response.ok) await cache.put(address, response.clone());
  return response;
}

async function answerTo(event, address) {
  const cache = await caches.open(NAME);
  const fresh = fetched(cache, address);
  const kept = await cache.match(address);
  if (!kept) return fresh;
  event.waitUntil(fresh.catch(() => {}));
  return kept;
}

oninstall = (event) => event.waitUntil(added());
onactivate = (event) => event.waitUntil(clients.claim());
onfetch = (event) => {
  const address = event.request.url.replace(/[?#].*/, "");
  if (event.request.method === "GET" && KEPT.includes(address)) {
    event.respondWith(answerTo(event, address));
  }
};
