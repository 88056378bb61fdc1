// Reads as much of TOML as start files use: integers, strings, booleans, arrays, tables, tables in a line and in a
// list. Integers become BigInt. What is not read here may still be TOML: the tool decides.

/** A fault of a text, with its line. */
export class TomlFault extends Error {}

class Reader {
  constructor(text) {
    this.text = text;
    this.at = 0;
    this.tables = new Map(); // of each table where its pairs stand: {entries, open, close}
    this.heads = []; // of each [[name]] and [name]: {name, from, to, table}
  }

  spansOf(table) {
    if (!this.tables.has(table)) this.tables.set(table, { entries: new Map(), open: null, close: null });
    return this.tables.get(table);
  }

  fault(what) {
    return new TomlFault(`line ${this.text.slice(0, this.at).split('\n').length}: ${what}`);
  }

  match(form) {
    form.lastIndex = this.at;
    const found = form.exec(this.text);
    if (found) this.at = form.lastIndex;
    return found;
  }

  blanks(withLines) {
    this.match(withLines ? /(?:[ \t\r\n]|#[^\n]*)*/y : /[ \t]*/y);
  }

  sees(text) {
    return this.text.startsWith(text, this.at);
  }

  takes(text) {
    if (!this.sees(text)) return false;
    this.at += text.length;
    return true;
  }

  want(text) {
    if (!this.takes(text)) throw this.fault(`wants ${text}`);
  }

  key() {
    const path = [];
    do {
      this.blanks(false);
      const bare = this.match(/[A-Za-z0-9_-]+/y);
      path.push(bare ? bare[0] : this.string());
      this.blanks(false);
    } while (this.takes('.'));
    return path;
  }

  string() {
    const found = this.match(/"((?:[^"\\\n]|\\.)*)"|'([^'\n]*)'/y);
    if (!found) throw this.fault('wants a key or a value');
    if (found[2] !== undefined) return found[2];
    return found[1].replace(/\\(?:u([0-9a-fA-F]{4})|U([0-9a-fA-F]{8})|(.))/g, (_, short, long, sign) => {
      if (short || long) return String.fromCodePoint(parseInt(short ?? long, 16));
      const plain = { b: '\b', t: '\t', n: '\n', f: '\f', r: '\r', '"': '"', '\\': '\\' }[sign];
      if (plain === undefined) throw this.fault('wants an escape');
      return plain;
    });
  }

  value() {
    if (this.takes('[')) return this.array();
    if (this.takes('{')) return this.inlineTable();
    const word = this.match(/true|false/y);
    if (word) return word[0] === 'true';
    const based = this.match(/0x[0-9A-Fa-f](?:_?[0-9A-Fa-f])*|0o[0-7](?:_?[0-7])*|0b[01](?:_?[01])*/y);
    if (based) return BigInt(based[0].replaceAll('_', ''));
    const number = this.match(/([+-]?)(0|[1-9](?:_?[0-9])*)(?![0-9_.eE:-])/y);
    if (number) return BigInt(number[2].replaceAll('_', '')) * (number[1] === '-' ? -1n : 1n);
    return this.string();
  }

  array() {
    const found = [];
    for (;;) {
      this.blanks(true);
      if (this.takes(']')) return found;
      found.push(this.value());
      this.blanks(true);
      if (this.takes(']')) return found;
      this.want(',');
    }
  }

  inlineTable() {
    const table = new Map(), spans = this.spansOf(table);
    spans.open = this.at;
    this.blanks(false);
    if (!this.sees('}')) {
      do {
        this.pair(table);
        this.blanks(false);
      } while (this.takes(','));
    }
    spans.close = this.at;
    this.want('}');
    return table;
  }

  pair(table) {
    this.blanks(false);
    const from = this.at, path = this.key(), keyTo = this.at;
    this.want('=');
    this.blanks(false);
    const inner = this.inside(table, path.slice(0, -1)), name = path.at(-1);
    if (inner.has(name)) throw this.fault(`${name} is there twice`);
    const valueFrom = this.at;
    inner.set(name, this.value());
    this.spansOf(inner).entries.set(name, { from, keyTo, valueFrom, to: this.at });
  }

  inside(table, path) {
    for (const name of path) {
      if (!table.has(name)) table.set(name, new Map());
      table = table.get(name);
      if (Array.isArray(table)) table = table.at(-1);
      if (!(table instanceof Map)) throw this.fault(`${name} is no table`);
    }
    return table;
  }

  lineEnd() {
    this.blanks(false);
    if (!this.match(/(?:#[^\n]*)?(?:\r?\n|$)/y)) throw this.fault('wants the end of the line');
  }

  document() {
    const root = new Map();
    let table = root;
    for (;;) {
      this.blanks(true);
      if (this.at === this.text.length) return root;
      const from = this.at;
      if (this.takes('[[')) {
        const path = this.key();
        this.want(']]');
        const outer = this.inside(root, path.slice(0, -1)), name = path.at(-1);
        if (!outer.has(name)) outer.set(name, []);
        if (!Array.isArray(outer.get(name))) throw this.fault(`${name} is no list of tables`);
        table = new Map();
        outer.get(name).push(table);
        this.heads.push({ name: path.join('.'), from, to: this.at, table });
      } else if (this.takes('[')) {
        const path = this.key();
        this.want(']');
        table = this.inside(root, path);
      } else {
        this.pair(table);
      }
      this.lineEnd();
    }
  }
}

/** The table that a text spells, as Maps, arrays, BigInt, texts and booleans. */
export function readToml(text) {
  return new Reader(text).document();
}

/** The same, with where it stands in the text: {root, tables, heads}. Of each table that has pairs or stands in a line,
    `tables` has its pairs by their names, each with the places of the pair, its key's end and its
    value, and the insides
    of its braces; `heads` has the heads of lists of tables, in the order of the text. */
export function readTomlPlaces(text) {
  const reader = new Reader(text), root = reader.document();
  return { root, tables: reader.tables, heads: reader.heads };
}
