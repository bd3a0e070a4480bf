// Indexes a large capture beside the page.
import { load } from './library.mjs';
import { index, rowsOf } from './capture.mjs';

self.onmessage = async ({ data: { module, bytes, settings, width } }) => {
  const library = await load(module);
  try {
    const indexed = index(library, bytes, settings, (read) => self.postMessage({ read }));
    const rows = rowsOf(bytes, width);
    self.postMessage({ indexed, rows }, [indexed.ends.buffer, rows.buffer]);
  } catch (error) {
    self.postMessage({ error: error.message });
  }
};
