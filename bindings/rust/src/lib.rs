//! Templates that are filled safely, for shell lines, SQL and CSV.
//!
//! The work is done by a library that is proved in Rattle. This crate declares its C functions and wraps them, and has no
//! dependency but the standard library. What the calls do is told in the documents of the library.

use std::fmt;

mod ffi {
    #[repr(C)]
    #[derive(Clone, Copy)]
    pub struct Refusal {
        pub number: u32,
        pub names_hole: bool,
        pub hole: usize,
        pub place: usize,
        pub carried: u32,
        pub carried_place: usize,
    }

    #[repr(C)]
    pub struct Checked {
        pub refusal: Refusal,
        pub holes: usize,
    }

    #[repr(C)]
    pub struct Listed {
        pub refusal: Refusal,
        pub len: usize,
    }

    #[repr(C)]
    pub struct Merged {
        pub refusal: Refusal,
        pub found: bool,
        pub next: usize,
        pub len: usize,
    }

    #[repr(C)]
    pub struct Merges {
        pub refusal: Refusal,
        pub count: usize,
        pub next: usize,
        pub len: usize,
    }

    macro_rules! declared {
        ($check:ident, $list:ident, $merge:ident, $merge_many:ident) => {
            extern "C" {
                pub fn $check(template: *const u8, template_len: usize) -> Checked;
                pub fn $list(
                    text: *const u8,
                    text_len: usize,
                    out: *mut u8,
                    out_len: usize,
                ) -> Listed;
                pub fn $merge(
                    template: *const u8,
                    template_len: usize,
                    input: *const u8,
                    input_len: usize,
                    place: usize,
                    out: *mut u8,
                    out_len: usize,
                ) -> Merged;
                pub fn $merge_many(
                    template: *const u8,
                    template_len: usize,
                    input: *const u8,
                    input_len: usize,
                    place: usize,
                    most: usize,
                    out: *mut u8,
                    out_len: usize,
                ) -> Merges;
            }
        };
    }

    declared!(
        gabirong_shell_check,
        gabirong_shell_list,
        gabirong_shell_merge,
        gabirong_shell_merge_many
    );
    declared!(
        gabirong_sql_check,
        gabirong_sql_list,
        gabirong_sql_merge,
        gabirong_sql_merge_many
    );
    declared!(
        gabirong_csv_check,
        gabirong_csv_list,
        gabirong_csv_merge,
        gabirong_csv_merge_many
    );
}

/// The most bytes of a text that is merged.
pub const MAX_TEXT: usize = 65_280;

/// The language that a template is written in.
#[derive(Clone, Copy, PartialEq, Eq, Debug)]
pub enum Host {
    Shell,
    Sql,
    Csv,
}

/// Why a call is refused: a number, a place, and the hole if it names one.
#[derive(Clone, Copy, PartialEq, Eq, Debug)]
pub struct Refusal {
    pub number: u32,
    pub hole: Option<usize>,
    pub place: usize,
}

impl fmt::Display for Refusal {
    fn fmt(&self, f: &mut fmt::Formatter<'_>) -> fmt::Result {
        match self.hole {
            Some(hole) => write!(
                f,
                "refused {} hole {hole} place {}",
                self.number, self.place
            ),
            None => write!(f, "refused {} place {}", self.number, self.place),
        }
    }
}

impl std::error::Error for Refusal {}

/// A record that was merged: the place after it, and the length of the text.
#[derive(Clone, Copy, PartialEq, Eq, Debug)]
pub struct Merged {
    pub next: usize,
    pub len: usize,
}

/// What merging many records came to. The numbers beside a refusal tell what was merged before it.
#[derive(Clone, Copy, PartialEq, Eq, Debug)]
pub struct Merges {
    /// How many records were merged.
    pub count: usize,
    /// The place after the last of them; the place that was given where there is none.
    pub next: usize,
    /// The length of their texts together.
    pub len: usize,
    /// That of the template, or that of the record at `next`; none where as many were merged as were asked for, or where the
    /// input ends.
    pub refusal: Option<Refusal>,
}

fn judged(refusal: ffi::Refusal) -> Result<(), Refusal> {
    if refusal.number == 0 {
        return Ok(());
    }
    Err(Refusal {
        number: refusal.number,
        hole: refusal.names_hole.then_some(refusal.hole),
        place: refusal.place,
    })
}

impl Host {
    /// Whether the host takes a template, and how many holes it has.
    pub fn check(self, template: &[u8]) -> Result<usize, Refusal> {
        let check = match self {
            Host::Shell => ffi::gabirong_shell_check,
            Host::Sql => ffi::gabirong_sql_check,
            Host::Csv => ffi::gabirong_csv_check,
        };
        // A slice is a pointer that is not null and a length, and the call keeps neither.
        let checked = unsafe { check(template.as_ptr(), template.len()) };
        judged(checked.refusal)?;
        Ok(checked.holes)
    }

    /// Fills the template with the record at a place of the input, and writes the text from the start of the output; none where
    /// the input ends there.
    pub fn merge(
        self,
        template: &[u8],
        input: &[u8],
        place: usize,
        out: &mut [u8],
    ) -> Result<Option<Merged>, Refusal> {
        let merge = match self {
            Host::Shell => ffi::gabirong_shell_merge,
            Host::Sql => ffi::gabirong_sql_merge,
            Host::Csv => ffi::gabirong_csv_merge,
        };
        // As above, and a `&mut` overlaps no other slice.
        let merged = unsafe {
            merge(
                template.as_ptr(),
                template.len(),
                input.as_ptr(),
                input.len(),
                place,
                out.as_mut_ptr(),
                out.len(),
            )
        };
        judged(merged.refusal)?;
        Ok(merged.found.then_some(Merged {
            next: merged.next,
            len: merged.len,
        }))
    }

    /// Checks the template, fills it with one record after another, from a place of the input on, and writes the texts one after
    /// another from the start of the output: until `most` are merged, the input ends, or a record is refused.
    ///
    /// Each record is given what is left of the output. Where that is too short it is refused with 17, whose place is the length
    /// of its own text: the caller empties the output and goes on at `next`. So a file of any length goes through one output:
    ///
    /// ```
    /// use gabirong::{record, Host, MAX_TEXT};
    /// use std::{error::Error, io::Write};
    ///
    /// fn merge_all(template: &[u8], file: &[u8], to: &mut impl Write) -> Result<(), Box<dyn Error>> {
    ///     let (mut out, mut place) = (vec![0; MAX_TEXT], 0);
    ///     loop {
    ///         let merges = Host::Sql.merge_many(template, file, place, usize::MAX, &mut out);
    ///         to.write_all(&out[..merges.len])?;
    ///         place = merges.next;
    ///         match merges.refusal {
    ///             None => return Ok(()),
    ///             // In an output of this length there is room for at least one record, so this comes to an end.
    ///             Some(refusal) if refusal.number == 17 => {}
    ///             Some(refusal) => return Err(refusal.into()),
    ///         }
    ///     }
    /// }
    ///
    /// let file = record(&[(b"id", b"7")]).ok_or("too long")?.repeat(10_000);
    /// let mut texts = Vec::new();
    /// merge_all(b"id = @{id};@n", &file, &mut texts)?;
    /// assert_eq!(texts, b"id = '7';\n".repeat(10_000));
    /// # Ok::<(), Box<dyn Error>>(())
    /// ```
    pub fn merge_many(
        self,
        template: &[u8],
        input: &[u8],
        place: usize,
        most: usize,
        out: &mut [u8],
    ) -> Merges {
        let merge_many = match self {
            Host::Shell => ffi::gabirong_shell_merge_many,
            Host::Sql => ffi::gabirong_sql_merge_many,
            Host::Csv => ffi::gabirong_csv_merge_many,
        };
        // As above.
        let merges = unsafe {
            merge_many(
                template.as_ptr(),
                template.len(),
                input.as_ptr(),
                input.len(),
                place,
                most,
                out.as_mut_ptr(),
                out.len(),
            )
        };
        Merges {
            count: merges.count,
            next: merges.next,
            len: merges.len,
            refusal: judged(merges.refusal).err(),
        }
    }

    /// Writes the tokens that a text reads as into the output, as fields, and answers their length.
    pub fn list(self, text: &[u8], out: &mut [u8]) -> Result<usize, Refusal> {
        let list = match self {
            Host::Shell => ffi::gabirong_shell_list,
            Host::Sql => ffi::gabirong_sql_list,
            Host::Csv => ffi::gabirong_csv_list,
        };
        // As above.
        let listed = unsafe { list(text.as_ptr(), text.len(), out.as_mut_ptr(), out.len()) };
        judged(listed.refusal)?;
        Ok(listed.len)
    }
}

/// The written form of a record: its pairs of name and value. None where a name or a value has more than 65,535 bytes; all
/// else that a record may not hold is refused by the merge that reads it.
pub fn record(pairs: &[(&[u8], &[u8])]) -> Option<Vec<u8>> {
    let mut file = Vec::new();
    for (name, value) in pairs {
        put_field(&mut file, 1, name)?;
        put_field(&mut file, 2, value)?;
    }
    put_field(&mut file, 3, b"")?;
    Some(file)
}

fn put_field(file: &mut Vec<u8>, tag: u8, bytes: &[u8]) -> Option<()> {
    let len = u16::try_from(bytes.len()).ok()?;
    file.push(tag);
    file.extend(len.to_be_bytes());
    file.extend(bytes);
    Some(())
}
