//! Tables that a call reads into rows, and strings of a file.

use crate::OutOfMemory;
use petool_sys as sys;

/// The bytes of a string that a call found in this file. They are sliced from the file, so no pointer is followed; a
/// string outside the file would be an empty one.
pub(crate) fn text_of(file: &[u8], text: sys::Text) -> &[u8] {
    let offset = (text.at as usize).wrapping_sub(file.as_ptr() as usize);
    let from = file.get(offset..).unwrap_or(&[]);
    from.get(..text.len).unwrap_or(&[])
}

/// This many rows, each of them initialized.
pub(crate) fn room_of<Row: Copy>(blank: Row, count: usize) -> Result<Vec<Row>, OutOfMemory> {
    let mut rows = Vec::new();
    rows.try_reserve_exact(count).map_err(|_| OutOfMemory)?;
    rows.resize(count, blank);
    Ok(rows)
}

/// All rows of a table, or the status of the failure. The call gets rows, which are all initialized, and a count to
/// set: once with the guessed room, and once more with the room that it then reports.
pub(crate) fn read_rows<Row: Copy>(
    guess: usize,
    blank: Row,
    mut call: impl FnMut(&mut [Row], &mut usize) -> u32,
) -> Result<Vec<Row>, u32> {
    let mut count = 0;
    let mut rows = room_of(blank, guess).map_err(|_| sys::PETOOL_MEMORY)?;
    let mut status = call(&mut rows, &mut count);
    if status == sys::PETOOL_SMALL {
        rows = room_of(blank, count).map_err(|_| sys::PETOOL_MEMORY)?;
        status = call(&mut rows, &mut count);
    }
    if status != sys::PETOOL_OK {
        return Err(status);
    }
    rows.truncate(count);
    Ok(rows)
}

/// A call that reads a table of a file into rows.
pub(crate) type RowsCall<Row> =
    unsafe extern "C" fn(*const u8, usize, *mut Row, usize, *mut usize, *mut sys::Fault) -> u32;

/// All rows that a call has of a file, which has no fault that the call could return.
pub(crate) fn rows_of<Row: Copy>(file: &[u8], blank: Row, call: RowsCall<Row>) -> Result<Vec<Row>, OutOfMemory> {
    let mut fault = sys::Fault::default();
    read_rows(0, blank, |rows, count| {
        // SAFETY: the file is a complete slice, which nobody writes to; the rows are initialized, and not shared
        unsafe {
            call(
                file.as_ptr(),
                file.len(),
                rows.as_mut_ptr(),
                rows.len(),
                count,
                &mut fault,
            )
        }
    })
    .map_err(|_| OutOfMemory)
}

/// Rows as the crate shows them, each made of one as the library filled it.
pub(crate) fn translated<Raw, Row: Copy>(
    rows: &[Raw],
    blank: Row,
    one: impl Fn(&Raw) -> Row,
) -> Result<Vec<Row>, OutOfMemory> {
    let mut all = room_of(blank, rows.len())?;
    for (to, from) in all.iter_mut().zip(rows) {
        *to = one(from);
    }
    Ok(all)
}

#[cfg(test)]
mod tests {
    use super::*;

    #[test]
    fn room_that_is_refused_is_want_of_memory() {
        assert_eq!(room_of(0_u64, usize::MAX / 8), Err(OutOfMemory));
        assert_eq!(
            read_rows(usize::MAX, 0_u64, |_, _| sys::PETOOL_OK),
            Err(sys::PETOOL_MEMORY)
        );
    }

    #[test]
    fn a_table_is_read_at_most_twice() {
        let mut calls = 0;
        let small = read_rows(1, 0_u64, |_, count| {
            calls += 1;
            *count = 1 + calls;
            sys::PETOOL_SMALL
        });
        assert_eq!((small, calls), (Err(sys::PETOOL_SMALL), 2));
        let none = read_rows(0, 0_u64, |_, count| {
            *count = 7;
            sys::PETOOL_OK
        });
        assert_eq!(none, Ok(vec![]));
    }

    #[test]
    fn a_text_that_is_not_in_the_file_is_empty() {
        let file = *b"abc";
        assert_eq!(text_of(&file, sys::Text::of(&file[1..])), b"bc");
        assert_eq!(text_of(&file[..2], sys::Text::of(&file[1..])), b"");
        assert_eq!(text_of(&file, sys::Text::NONE), b"");
        assert_eq!(text_of(&[], sys::Text::NONE), b"");
    }
}
