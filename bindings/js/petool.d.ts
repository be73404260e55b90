/** petool for JavaScript: reads Portable Executable images and COFF objects that may be hostile. */

/** A number of 64 bits, written `0x` and hexadecimal digits, which `BigInt` takes. */
export type Hex = string;

/** Where a fault is: in a file, in the laid-out image, in an address space, or in a list. */
export type Place = { file: number } | { rva: number } | { address: Hex } | { item: number };

/** Names that are not UTF-8 come as bytes in hexadecimal digits, under their key with `_hex`. */
export interface Named {
  name?: string;
  name_hex?: string;
}

/** The fields of the headers, under their names in "PE Format" in snake case. */
export interface Headers {
  machine: number;
  machine_name?: string;
  number_of_sections: number;
  time_date_stamp: number;
  /** Not of a big object. */
  characteristics?: number;
  characteristics_flags?: string[];
  /** Of an image, not of an object. */
  image_base?: Hex;
  address_of_entry_point?: number;
  size_of_image?: number;
  size_of_headers?: number;
  [field: string]: number | string | string[] | undefined;
}

export interface Directory {
  index: number;
  name: string;
  /** An RVA; of `certificate` a file offset. */
  virtual_address: number;
  size: number;
}

export interface Section extends Named {
  /** Of an image, counted from 0. */
  index?: number;
  /** Of an object, counted from 1. */
  number?: number;
  short_name?: string;
  virtual_size: number;
  virtual_address: number;
  size_of_raw_data: number;
  pointer_to_raw_data: number;
  characteristics: number;
  characteristics_flags: string[];
  /** Of an object's section whose flags tell one: its alignment in bytes. */
  alignment?: number;
  /** Of an object. */
  relocations?: Relocation[];
}

export interface Relocation {
  virtual_address: number;
  symbol_table_index: number;
  type: number;
  type_name?: string;
}

export interface Export extends Named {
  ordinal: number;
  rva?: number;
  forward?: { module?: string; module_hex?: string; name?: string; name_hex?: string; ordinal?: number };
}

export interface Import extends Named {
  module?: string;
  module_hex?: string;
  ordinal?: number;
  /** The RVA of its import address table entry. */
  slot: number;
}

export interface Fixup {
  rva: number;
  bits?: 32 | 64;
  kind?: 'high' | 'low';
}

export interface Symbol extends Named {
  index: number;
  value: number;
  section_number?: number;
  section?: string;
  type: number;
  storage_class: number;
  storage_class_name?: string;
  auxiliary_records?: { index: number; kind: string; [field: string]: unknown }[];
}

/** An entry of the debug directory. */
export interface Debug {
  characteristics: number;
  time_date_stamp: number;
  major_version: number;
  minor_version: number;
  type: number;
  type_name?: string;
  size_of_data: number;
  /** An RVA; 0 if the data is not laid out. */
  address_of_raw_data: number;
  /** A file offset; 0 if the file does not hold the data. */
  pointer_to_raw_data: number;
}

/** The PDB file that the debug data names. */
export interface Pdb {
  guid_hex?: string;
  time_date_stamp?: number;
  age: number;
  path?: string;
  path_hex?: string;
}

/** A function of the exception table, by RVAs. */
export interface FunctionRow {
  begin: number;
  /** Of AMD64. */
  end?: number;
  unwind: number;
}

/** A leaf of the resource tree; a type, a name or a language is an id or a text. */
export interface Resource {
  rva: number;
  size: number;
  code_page: number;
  type?: number | string;
  name?: number | string;
  language?: number | string;
}

export interface Version {
  rva: number;
  file_version?: number[];
  product_version?: number[];
  string_tables?: { key: string; strings: { key: string; value: string }[] }[];
  [field: string]: unknown;
}

/** An entry of the certificate table. Nothing says whether a signature is valid. */
export interface Certificate {
  /** A file offset. */
  offset: number;
  length: number;
  revision: number;
  type: number;
  type_name?: string;
  digest_algorithm?: 'SHA-1' | 'SHA-256' | 'SHA-384' | 'SHA-512';
  digest_hex?: string;
  /** Whether the digest that is signed is that of the file. */
  fits?: boolean;
  signers?: { serial_hex: string; subject?: string; subject_hex?: string; issuer?: string; issuer_hex?: string }[];
}

export interface BoundImport {
  time_date_stamp: number;
  offset_module_name: number;
  number_of_module_forwarder_refs: number;
  module?: string;
  module_hex?: string;
}

export interface Rich {
  /** A file offset. */
  offset: number;
  key: number;
  fits: boolean;
  pairs: { product: number; build: number; count: number }[];
}

/** A rule of the tables beyond the profile that a file breaks. It is accepted nevertheless. */
export interface Finding {
  number: number;
  image: number;
  place: Place;
  subject: string;
  rule: string;
}

/** A symbol of a linker member of an archive. */
export interface ArchiveSymbol extends Named {
  /** The file offset of the header of the member that defines it. */
  offset?: number;
}

/** The line of `petool json`; docs/JSON.md has all of its keys. */
export interface Line {
  schema: 1;
  accepted: boolean;
  format?: 'PE32' | 'PE32+' | 'COFF' | 'BIGOBJ' | 'archive' | 'thin archive' | 'import object';
  /** What a refused file is instead, if its first bytes show it. */
  kind?: string;
  pe_offset?: number;
  headers?: Headers;
  directories?: Directory[];
  sections?: Section[];
  exports?: Export[];
  imports?: Import[];
  fixups?: Fixup[];
  symbols?: Symbol[];
  /** From here on what only `all` tells of an image. */
  debug?: Debug[];
  pdb?: Pdb;
  function_count?: number;
  functions?: FunctionRow[];
  tls?: Record<string, number | Hex | Hex[]>;
  load_configuration?: Record<string, number | Hex>;
  bound_imports?: BoundImport[];
  clr?: Record<string, number>;
  delay_imports?: Import[];
  resources?: Resource[];
  version?: Version;
  manifest?: string;
  check_sum_computed?: number;
  authenticode_sha256_hex?: string;
  certificates?: Certificate[];
  overlay?: { offset: number; size: number; begins_with: string };
  rich?: Rich;
  imphash?: string;
  findings?: Finding[];
  /** Of a member of an archive. */
  member?: string;
  offset?: number;
  size?: number;
  /** Of an archive. */
  first_linker_member?: ArchiveSymbol[];
  second_linker_member?: ArchiveSymbol[];
  [key: string]: unknown;
}

/** A file, or a set of images, is refused: `number` is the rule that it breaks first, and `place` where. */
export class Fault extends Error {
  readonly number: number;
  /** Of a set, the index of the image. */
  readonly image: number;
  readonly place: Place;
  /** What is at the place. */
  readonly subject: string;
  readonly rule: string;
  /** The numbers that the rule compares, by their names; of a fault that is read from a line none but the length of a cycle. */
  readonly values: Record<string, number | string>;
}

/** There is not as much memory as a call needs, or as it may take, which is 1 GB with the files. */
export class OutOfMemory extends Error {}

/** What a fault or a finding means: `explained` says more of the rule, and `metBy` which files have it. */
export function explain(number: number): { subject: string; rule: string; explained?: string; metBy?: string } | undefined;

export interface Options {
  /** What the file is called in its lines. */
  name?: string;
  /** Whether a refused file is returned, with its fault in `fault`, and not thrown as a `Fault`. */
  refused?: boolean;
  /** How many bytes a text of it may have, 511 MB if none is given: a longer one is `OutOfMemory`. */
  mostText?: number;
}

export type Table =
  | 'exports' | 'imports' | 'relocations' | 'symbols' | 'debug' | 'functions' | 'unwind' | 'tls' | 'load' | 'resources' | 'trust';

/** An image, an object or an archive. */
export class OpenedFile {
  private constructor();
  readonly name: string;
  readonly length: number;
  /** What the line of the file says; of an archive its last line. */
  readonly line: Line;
  /** The lines of an archive's members. */
  readonly members: Line[];
  readonly fault: Fault | null;
  readonly format: Line['format'];
  readonly headers?: Headers;
  readonly directories?: Directory[];
  readonly sections?: Section[];
  readonly exports?: Export[];
  readonly imports?: Import[];
  readonly fixups?: Fixup[];
  readonly symbols?: Symbol[];
  readonly memoryBytes: number;
  /** The bytes from `begin` up to `end`. The next call may overwrite what is returned; `slice()` copies it. */
  bytes(begin?: number, end?: number): Uint8Array;
  /** The lines as text. */
  json(options?: { all?: boolean; functions?: boolean; symbols?: boolean; digests?: boolean }): string;
  /** The line with the tables beyond the profile and what the file says of itself. */
  all(options?: { functions?: boolean; symbols?: boolean; digests?: boolean }): Line;
  /** What is at a place, as `petool at` tells it: an RVA, an address with the image at its ImageBase, or a file offset. */
  at(place: number | bigint | string, options?: { as?: 'rva' | 'address' | 'file' }): string;
  /** What `petool check` prints, and so on. A refused file is thrown as a `Fault`. */
  check(): string;
  dump(): string;
  object(): string;
  archive(): string;
  /** The same, but of a refused file the line of its first fault. */
  lines(command: 'check' | 'dump' | 'object' | 'archive'): string;
  /** The readable page of `petool show`. */
  show(options?: { tables?: Table[]; width?: number }): string;
  /** The file for another base, whose CheckSum is 0. */
  rebase(base: number | bigint | string): Uint8Array;
}

export interface Entry {
  /** The name by which others import from it; the case of ASCII letters is ignored. */
  name: string;
  bytes: Uint8Array | ArrayBuffer;
  base: number | bigint | string;
}

export interface Binding {
  /** The index of the image that has the slot, and the slot's RVA. */
  image: number;
  slot: number;
  /** The index of the image that has the export, and the export's RVA. */
  exporter: number;
  rva: number;
  /** The address in the slot. */
  value: bigint;
}

export interface Unbound {
  image: number;
  slot: number;
  module: string;
  name?: string;
  ordinal?: number;
}

/** Images in one address space. */
export class Space {
  private constructor();
  readonly images: { name: string; base: bigint; size: number }[];
  readonly bindings: Binding[];
  /** The imports that are bound to nothing, which only `known` allows. */
  readonly unbound: Unbound[];
  /** Bytes as they stand in the address space. */
  read(address: number | bigint | string, count: number): Uint8Array;
  /** Gives an image another base, or throws a `Fault` and moves nothing. */
  move(image: number, base: number | bigint | string): void;
}

/** Opens an image, an object or an archive. */
export function open(bytes: Uint8Array | ArrayBuffer, options?: Options): OpenedFile;

/** Maps images together. With `known`, an import from a module that is not among the entries is no fault. */
export function map(entries: Entry[], options?: { known?: boolean }): Space;
