// Runs the module plan.wasm: gives it its arguments, standard input, named files in memory and the
// clock, and takes what it writes. In a browser's page or worker and in Node.

// Error numbers of Linux.
const [NO_FILE, BAD_FILE, EXISTS, IS_FOLDER, NO_SEEK] = [2, 9, 17, 21, 29];

// Flags of `open`.
const [ACCESS, WRITE_ONLY, CREATE, NEW, EMPTY, APPEND] = [3, 1, 0o100, 0o200, 0o1000, 0o2000];

// The status of a program that was stopped, as a shell returns it.
const STOPPED = 134;

const encoder = new TextEncoder();
const decoder = new TextDecoder();

// Returns the SHA-256 of bytes as hexadecimal digits.
export async function digestOf(bytes) {
  const sum = new Uint8Array(await crypto.subtle.digest("SHA-256", bytes));
  return Array.from(sum, (byte) => byte.toString(16).padStart(2, "0")).join("");
}

// Compiles a module. Throws an error if its SHA-256 is another one than `digest`.
export async function load(bytes, digest) {
  if ((await digestOf(bytes)) !== digest) {
    throw new Error("plan.wasm is another module than this page expects");
  }
  return WebAssembly.compile(bytes);
}

// Returns a name of a file in one form: without "." and double slashes.
function normal(name) {
  const parts = name.split("/").filter((part) => part !== "" && part !== ".");
  return (name.startsWith("/") ? "/" : "") + parts.join("/");
}

// Bytes that grow.
class Bytes {
  constructor(bytes) {
    this.room = bytes;
    this.length = bytes.length;
    this.isShared = true;
  }

  // Writes bytes at a place, behind zeros if the place is behind the end.
  write(place, bytes) {
    const end = place + bytes.length;
    if (this.isShared || end > this.room.length) {
      const room = new Uint8Array(Math.max(end, 2 * this.length, 1024));
      room.set(this.room.subarray(0, this.length));
      this.room = room;
      this.isShared = false;
    }
    this.room.set(bytes, place);
    this.length = Math.max(this.length, end);
  }

  whole() {
    return this.room.subarray(0, this.length);
  }
}

// Named files in memory. A name is a folder if it is that of a file up to a slash. A file can be
// created in any folder.
class Files {
  constructor(files) {
    this.named = new Map();
    for (const [name, bytes] of files) {
      this.named.set(normal(name), new Bytes(bytes));
    }
  }

  isFolder(name) {
    const names = [...this.named.keys()];
    return name === "" || name === "/" || names.some((it) => it.startsWith(`${name}/`));
  }

  // Opens a file. Returns its bytes, `null` for a folder, or a negative error number.
  open(text, flags) {
    const name = normal(text);
    const writes = (flags & ACCESS) !== 0 || (flags & CREATE) !== 0;
    if (text === "") return -NO_FILE;
    if (this.isFolder(name)) return writes ? -IS_FOLDER : null;
    const found = this.named.get(name);
    if (found === undefined) return flags & CREATE ? this.create(name) : -NO_FILE;
    if ((flags & CREATE) !== 0 && (flags & NEW) !== 0) return -EXISTS;
    if ((flags & EMPTY) !== 0) {
      found.length = 0;
    }
    return found;
  }

  create(name) {
    const made = new Bytes(new Uint8Array(0));
    this.named.set(name, made);
    return made;
  }

  rename(from, to) {
    const moved = this.named.get(normal(from));
    if (moved === undefined) return -NO_FILE;
    this.named.delete(normal(from));
    this.named.set(normal(to), moved);
    return 0;
  }
}

// Returns the functions of "page" that shim.c calls, for one run. `memory` returns the bytes of the
// module. `status` fills the mode, the number and the length of Linux's struct statx.
function functionsOf(call, files, outputs, memory) {
  const words = call.words.map((word) => encoder.encode(word));
  const open = [new Bytes(call.input), ...outputs].map((bytes) => ({ bytes, place: 0 }));
  const textAt = (at, length) => decoder.decode(memory().slice(at, at + length));

  // Copies a text into a room. Returns its length, -1 without a text, -2 if the room is too small.
  const fill = (text, at, room) => {
    if (text === undefined) return -1;
    memory().set(text.subarray(0, room), at);
    return text.length > room ? -2 : text.length;
  };

  return {
    arguments: () => words.length,
    argument: (index, at, room) => fill(words[index], at >>> 0, room >>> 0),
    variable(name, length, at, room) {
      const text = call.variables?.[textAt(name >>> 0, length)];
      return fill(text === undefined ? undefined : encoder.encode(text), at >>> 0, room >>> 0);
    },
    open(name, length, flags) {
      const bytes = files.open(textAt(name >>> 0, length), flags);
      if (typeof bytes === "number") return bytes;
      const isRead = (flags & ACCESS) !== WRITE_ONLY;
      const isWritten = (flags & ACCESS) !== 0;
      open.push({ bytes, place: 0, isRead, isWritten, appends: (flags & APPEND) !== 0 });
      return open.length - 1;
    },
    close(file) {
      if (open[file] === undefined) return -BAD_FILE;
      open[file] = undefined;
      return 0;
    },
    read(file, at, count) {
      const it = open[file];
      if (it === undefined || file === 1 || file === 2 || it.isRead === false) return -BAD_FILE;
      if (it.bytes === null) return -IS_FOLDER;
      const part = it.bytes.whole().subarray(it.place, it.place + count);
      memory().set(part, at >>> 0);
      it.place += part.length;
      return part.length;
    },
    write(file, at, count) {
      const it = open[file];
      if (it === undefined || file === 0 || it.isWritten === false) return -BAD_FILE;
      const part = memory().slice(at >>> 0, (at >>> 0) + count);
      if (file === 1 || file === 2 || it.appends) {
        it.place = it.bytes.length;
      }
      it.bytes.write(it.place, part);
      it.place += part.length;
      if (file === 1 || file === 2) {
        call.wrote?.(file, part);
      }
      return part.length;
    },
    seek(file, offset, from) {
      const it = open[file];
      if (it === undefined) return -BAD_FILE;
      if (file <= 2 || it.bytes === null) return -NO_SEEK;
      it.place = offset + [0, it.place, it.bytes.length][from];
      return it.place;
    },
    rename(from, fromLength, to, toLength) {
      const name = textAt(to >>> 0, toLength);
      const failed = files.rename(textAt(from >>> 0, fromLength), name);
      if (failed === 0) {
        call.renamed?.(name, files.named.get(normal(name)).whole().slice());
      }
      return failed;
    },
    remove(name, length) {
      return files.named.delete(normal(textAt(name >>> 0, length))) ? 0 : -NO_FILE;
    },
    status(name, length, at) {
      const found = files.open(textAt(name >>> 0, length), 0);
      if (typeof found === "number") return found;
      const fields = new DataView(new ArrayBuffer(256));
      fields.setUint16(28, found === null ? 0o40755 : 0o100644, true);
      fields.setUint32(32, [...files.named.values()].indexOf(found) + 1, true);
      fields.setUint32(40, found?.length ?? 0, true);
      memory().set(new Uint8Array(fields.buffer), at >>> 0);
      return 0;
    },
    random(at, count) {
      memory().set(crypto.getRandomValues(new Uint8Array(count)), at >>> 0);
      return 0;
    },
    clock: (clock) => (clock === 0 ? Date.now() : performance.now()),
    terminal: (file) => Number(file === 2 && call.isTerminal === true),
  };
}

// Runs a module once. `call` has these members:
//   words      the command line, beginning with the name of the program
//   input      the bytes of standard input
//   files      pairs of a name and its bytes
//   variables  the environment: an object of texts (optional)
//   isTerminal whether standard error is a terminal, so that a search shows its progress (optional)
//   wrote      is called with 1 or 2 and the bytes of each write to that output (optional)
//   renamed    is called with the name and the bytes of each file that is renamed (optional)
// Returns the exit status, the bytes of both outputs, and all files as a map.
export function run(module, call) {
  const files = new Files(call.files);
  const outputs = [new Bytes(new Uint8Array(0)), new Bytes(new Uint8Array(0))];
  let instance;
  let view = new Uint8Array(0);
  const memory = () => {
    if (view.buffer !== instance.exports.memory.buffer) {
      view = new Uint8Array(instance.exports.memory.buffer);
    }
    return view;
  };
  instance = new WebAssembly.Instance(module, { page: functionsOf(call, files, outputs, memory) });
  let status = STOPPED;
  try {
    status = instance.exports.start();
  } catch (error) {
    const line = encoder.encode(`plan.wasm stopped: ${error.message}\n`);
    outputs[1].write(outputs[1].length, line);
    call.wrote?.(2, line);
  }
  const kept = new Map([...files.named].map(([name, bytes]) => [name, bytes.whole().slice()]));
  const [output, errors] = outputs.map((bytes) => bytes.whole().slice());
  return { status, output, errors, files: kept };
}
