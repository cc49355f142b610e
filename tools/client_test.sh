#!/bin/sh
# The tests of the client in client/: `sh tools/client_test.sh node`, or `make client-test`, and `browser`, or `make
# browser-test`. They want node 20 or later; those of the browser Chromium too, and nginx and Varnish where the paths
# through them are to be tried. The program is the built one, or else dist/quaestor; QUAESTOR names another.
cd "$(dirname "$0")/.." || exit 2
command -v node > /dev/null || { echo "client: node 20 or later is missing: apt-get install nodejs" >&2; exit 2; }
[ -f "${CLIENT_WASM:-dist/client_web.wasm}" ] || { echo "client: there is no dist/client_web.wasm: make wasm" >&2; exit 2; }
case $1 in
node) node client/test/vectors.mjs && node client/test/examples.mjs && node client/test/tabs.mjs && node client/test/world.mjs 1500 1 2 3 && CORE=blind node client/test/world.mjs 600 1 ;;
browser) node client/test/browser.mjs 500 1 2 3 && node --experimental-websocket client/test/shop.mjs ;;
*) echo "client: node or browser" >&2; exit 2 ;;
esac
