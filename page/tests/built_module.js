// The module that page/index.html holds, or the one that MODULE names, for tests.

import fs from 'node:fs';
import zlib from 'node:zlib';

const PAGE = new URL('../index.html', import.meta.url);

/** The module's bytes; null where there is no page yet. */
export function moduleBytes() {
  if (process.env.MODULE) return fs.readFileSync(process.env.MODULE);
  if (!fs.existsSync(PAGE)) return null;
  const found = /id="module-data">([A-Za-z0-9+/=\s]*)</.exec(fs.readFileSync(PAGE, 'latin1'));
  return zlib.inflateRawSync(Buffer.from(found[1], 'base64'));
}
