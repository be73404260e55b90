// Lines of JSON that have many rows in each of their lists, as those of hostile files do.

const HEADERS = {
  machine: 0x14c, machine_name: 'I386', characteristics_flags: ['DLL'], dll_characteristics_flags: [], image_base: '0x10000000', size_of_image: 0x3000, size_of_headers: 0x200, size_of_optional_header: 0,
  time_date_stamp: 0, address_of_entry_point: 0, pointer_to_symbol_table: 0, number_of_symbols: 0,
};

const rowsOf = (rows, make) => Array.from({ length: rows }, (_, index) => make(index));

/** The line of an image with so many rows in each list: of the certificates of its first signature each but the last issued the next. */
export function imageLine(rows) {
  return [{
    accepted: true, format: 'PE32', pe_offset: 64, headers: HEADERS,
    directories: rowsOf(16, index => ({ index, name: index ? 'debug' : 'export', virtual_address: 0x1000 + index, size: 16 })),
    // the field that counts them has 16 bits
    sections: rowsOf(Math.min(rows, 65_535), index => ({ index, name: `.s${index}`, virtual_size: 1, virtual_address: 4096 * index, size_of_raw_data: 1, pointer_to_raw_data: 512 + index, characteristics: 0x40000040, characteristics_flags: ['MEM_READ'] })),
    exports: rowsOf(rows, index => ({ ordinal: index, rva: 4096, name: `e${index}` })),
    imports: rowsOf(rows, index => ({ module: `m${index}.dll`, name: `i${index}`, slot: 4096 + 4 * index })),
    fixups: rowsOf(rows, index => ({ rva: 4096 * index, bits: 32 })),
    delay_imports: rowsOf(rows, index => ({ module: `d${index}.dll`, ordinal: index, slot: 4096 + 4 * index })),
    resources: rowsOf(rows, index => ({ rva: 4096, size: 1, code_page: 0, type: index, name: `r${index}`, language: 1033 })),
    version: { rva: 4096, file_version: [1, 2, 3, 4], string_tables: [{ key: '040904b0', strings: rowsOf(rows, index => ({ key: `k${index}`, value: 'v' })) }, ...rowsOf(rows, index => ({ key: `t${index}`, strings: [] }))] },
    functions: rowsOf(rows, index => ({ begin: 4096, end: 4097, unwind: 8192 + index })),
    symbols: rowsOf(rows, index => ({ index, name: `s${index}`, value: index, section_number: 1 + (index % 1000) })),
    debug: rowsOf(rows, index => ({ type: 2, type_name: 'CODEVIEW', size_of_data: 1, address_of_raw_data: 4096, pointer_to_raw_data: 512 + index })),
    tls: { rva: 4096, callbacks: rowsOf(rows, index => `0x1000${index}`) },
    bound_imports: rowsOf(rows, index => ({ time_date_stamp: 0, offset_module_name: index, module: `b${index}.dll` })),
    certificates: [
      { offset: 1024, length: 8, revision: 512, type: 2, digest_algorithm: 'SHA-256', digest_hex: '00', fits: true, signers: rowsOf(rows, index => ({ serial_hex: '01', subject: `a${index}`, issuer: `a${index - 1}` })) },
      ...rowsOf(rows, index => ({ offset: 2048 + 8 * index, length: 8, revision: 512, type: 2, signers: [{ serial_hex: '01', subject: `c${index}`, issuer: `c${index}` }] })),
    ],
    rich: { offset: 128, key: 1, fits: true, pairs: rowsOf(rows, index => ({ product: index, build: 1, count: 1 })) },
    findings: rowsOf(rows, index => ({ number: 112, image: 0, place: { rva: 4096 + index }, subject: 'exception table', rule: 'it is wrong' })),
  }];
}

/** The line of an object with so many sections and symbols, and as many relocations. */
export function objectLine(rows) {
  return [{
    accepted: true, format: 'COFF', headers: HEADERS,
    sections: rowsOf(Math.min(rows, 65_535), index => ({
      number: index + 1, name: `.s${index}`, virtual_address: 0, size_of_raw_data: 1, pointer_to_raw_data: 512 + index, pointer_to_relocations: 1024, characteristics: 0x40000040,
      relocations: [{ virtual_address: 0, symbol_table_index: index, type: 6 }],
    })),
    symbols: rowsOf(rows, index => ({ index, name: `s${index}`, value: 0, section_number: index + 1 })),
  }];
}

/** The lines of an archive with so many members, and as many symbols. */
export function archiveLines(rows) {
  const symbols = rowsOf(rows, index => ({ name: `s${index}`, offset: 8 + 60 * index }));
  return [...rowsOf(rows, index => ({ member: `m${index}.obj`, offset: 8 + 60 * index, size: 0, format: 'COFF', accepted: true })), { archive: 'a.lib', format: 'archive', accepted: true, first_linker_member: symbols, second_linker_member: symbols }];
}
