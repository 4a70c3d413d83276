// A worker of its own makes the page of a deck, so that the telephones do not stand still while a long one is read.

self.onmessage = async ({ data: { wasm, bytes } }) => self.postMessage(await pageOfDeck(wasm, bytes));
