//! The calls over slices of numbers, as C sees them.
//!
//! The record is lent as 9 numbers, the desk as 16 words for each writer, the fields as 4 words for
//! each cell, the colours as a byte for each cell. [`Record`](crate::Record) and
//! [`Row`](crate::Row) say which number is which. An answer is a number: below 100 it is that of a
//! [`Refusal`](crate::Refusal), and then nothing that was lent has changed; else it is [`DONE`],
//! [`MORE`], [`WORKED`] or [`WAITED`].
//!
//! Every call takes any numbers and any contents, and slices of any lengths. It ends, and neither
//! blocks nor allocates. Before all else it tests the sizes: refusal 1 where N, g or M is out of
//! limits, or the record isn't 9 long, the desk 16M, the fields 4N or the colours N. Next comes
//! refusal 3, for a writer, slot, field or page that isn't there; then 2, where a number of the
//! record or of the writer's row is out of range; then what each call names below, in that order.
//!
//! The functions are safe, since all that the archive asks of its caller is what a slice is: a
//! pointer to as many elements as it is long. It is proved to read and write these and nothing
//! else, whatever they hold.
//!
//! ```
//! use turns::lent;
//!
//! let (record, desk) = (&mut [0; 9], &mut [0; 16]);
//! let (fields, colours) = (&mut [0; 8], &mut [0; 2]);
//! assert_eq!(lent::start(record, desk, fields, colours, 2, 1, 1), lent::DONE);
//! assert_eq!(lent::page(record, desk, fields, colours, 0, 0, 7), lent::DONE);
//! assert_eq!(desk[8], 0); // page 0 is in slot 7 of writer 0
//! assert_eq!(lent::create(record, desk, fields, colours, 0, 1), lent::MORE);
//! assert_eq!(lent::next(record, desk, fields, colours, 0), lent::MORE);
//! assert_eq!(lent::next(record, desk, fields, colours, 0), lent::DONE);
//! assert_eq!(lent::create(record, desk, fields, colours, 0, 2), 7); // no cell is free
//! assert_eq!(lent::collect(record, desk, fields, colours), lent::WORKED);
//! ```

// A call has the parameters of `turns.h`, four of them the lent parts.
#![allow(clippy::too_many_arguments)]

/// The call, or the job, is finished.
pub const DONE: u32 = 100;

/// The job is unfinished: [`next`] does its next turn.
pub const MORE: u32 = 101;

/// The collector worked.
pub const WORKED: u32 = 102;

/// The collector waits for a writer, and changed nothing.
pub const WAITED: u32 = 103;

/// The eight calls of a writer take the same parts, and then their numbers.
macro_rules! writer_calls {
    ($($(#[$doc:meta])* $name:ident = $symbol:ident($($number:ident),*);)*) => {$(
        $(#[$doc])*
        #[must_use = "the answer says whether the call is refused, and whether a job is unfinished"]
        pub fn $name(
            record: &[u32],
            desk: &mut [u16],
            fields: &mut [u16],
            colours: &mut [u8],
            $($number: u32),*
        ) -> u32 {
            extern "C" {
                fn $symbol(
                    record: *const u32,
                    record_len: usize,
                    desk: *mut u16,
                    desk_len: usize,
                    fields: *mut u16,
                    fields_len: usize,
                    colours: *mut u8,
                    colours_len: usize,
                    $($number: u32),*
                ) -> u32;
            }
            // SAFETY: each pointer and length are those of a slice, so it is aligned and not null,
            // and leads to as many elements; the borrows keep the slices apart, and everybody else
            // away from them. The record is only read, the others are borrowed to be written.
            unsafe {
                $symbol(
                    record.as_ptr(),
                    record.len(),
                    desk.as_mut_ptr(),
                    desk.len(),
                    fields.as_mut_ptr(),
                    fields.len(),
                    colours.as_mut_ptr(),
                    colours.len(),
                    $($number),*
                )
            }
        }
    )*};
}

writer_calls! {
    /// Puts page p in slot s of writer w: [`DONE`]. Row w is changed.
    ///
    /// Refused with 1, 3, 2; 4 where the writer has a job.
    page = turns_lent_page(w, p, s);

    /// Copies slot r of writer w to its slot s, none too: [`DONE`]. Row w is changed.
    ///
    /// Refused with 1, 3, 2; 4 where the writer has a job.
    copy = turns_lent_copy(w, r, s);

    /// Empties slot r of writer w: [`DONE`]. Row w is changed.
    ///
    /// Refused with 1, 3, 2; 4 where the writer has a job.
    drop = turns_lent_drop(w, r);

    /// Puts field f of the cell in slot r of writer w into its slot s: [`DONE`]. Row w is changed.
    ///
    /// Refused with 1, 3, 2; 4 where the writer has a job; 6 where slot r is empty; 2 where what the
    /// field holds is out of range.
    read = turns_lent_read(w, r, f, s);

    /// Begins to store slot q of writer w into field f of the cell in its slot r: [`MORE`]. Row w
    /// is changed: its job is a store of two, four or five turns, this one included.
    ///
    /// Refused with 1, 3, 2; 4 where the writer has a job; 6 where slot r is empty.
    store = turns_lent_store(w, r, f, q);

    /// Begins to create a cell into slot s of writer w: [`MORE`]. The lowest free cell becomes
    /// black and its fields none. Row w is changed: its job is a creation of three turns, this one
    /// included.
    ///
    /// Refused with 1, 3, 2; 4 where the writer has a job; 2 where a colour above 3 comes before
    /// the first free cell; 7 where no cell is free.
    create = turns_lent_create(w, s);

    /// Answers the handshake. Where 1 or 2 is posted, the status of writer w becomes that:
    /// [`DONE`]. Where 0 is, it begins a job of ten turns, this one included: [`MORE`]. Row w is
    /// changed.
    ///
    /// Refused with 1, 3, 2; 4 where the writer has a job; 5 where its status is the posted one.
    answer = turns_lent_answer(w);

    /// The next turn of writer w's job: [`MORE`], or [`DONE`] where it was the last. Row w is
    /// changed. A turn of an answer or a store may make a white cell gray, the last turn of a store
    /// writes its field, and the last turn of a creation may make its cell white.
    ///
    /// Refused with 1, 3, 2; 5 where the writer has no job; 2 where a field or a colour that the
    /// turn reads is out of range.
    next = turns_lent_next(w);
}

extern "C" {
    fn turns_lent_start(
        record: *mut u32,
        record_len: usize,
        desk: *mut u16,
        desk_len: usize,
        fields: *mut u16,
        fields_len: usize,
        colours: *mut u8,
        colours_len: usize,
        n: u32,
        g: u32,
        m: u32,
    ) -> u32;
    fn turns_lent_collect(
        record: *mut u32,
        record_len: usize,
        desk: *const u16,
        desk_len: usize,
        fields: *const u16,
        fields_len: usize,
        colours: *mut u8,
        colours_len: usize,
    ) -> u32;
    fn turns_lent_census(
        record: *const u32,
        record_len: usize,
        desk: *const u16,
        desk_len: usize,
        fields: *const u16,
        fields_len: usize,
        colours: *const u8,
        colours_len: usize,
        counts: *mut u32,
        counts_len: usize,
    ) -> u32;
    fn turns_cycle_bound(n: u16, g: u16) -> u64;
    fn turns_version() -> u32;
}

/// Fills everything for n cells, g pages and m writers: [`DONE`]. Fields and slots are none, pages
/// white, other cells free, rows idle with status 0, the record at rest. Reads nothing of what
/// stood there.
///
/// Refused with 1, for the numbers given and the lengths lent, and with nothing else.
#[must_use = "the answer says whether the call is refused"]
pub fn start(
    record: &mut [u32],
    desk: &mut [u16],
    fields: &mut [u16],
    colours: &mut [u8],
    n: u32,
    g: u32,
    m: u32,
) -> u32 {
    // SAFETY: each pointer and length are those of a slice, so it is aligned and not null, and
    // leads to as many elements; the borrows keep the slices apart, and everybody else away from
    // them. All four are borrowed to be written.
    unsafe {
        turns_lent_start(
            record.as_mut_ptr(),
            record.len(),
            desk.as_mut_ptr(),
            desk.len(),
            fields.as_mut_ptr(),
            fields.len(),
            colours.as_mut_ptr(),
            colours.len(),
            n,
            g,
            m,
        )
    }
}

/// A turn of the collector: [`WORKED`], and the record and at most one colour are changed; or
/// [`WAITED`] for an answer, and nothing is.
///
/// Refused with 1; 2, where a number of the record, or a status, field or colour that the turn
/// reads, is out of range.
#[must_use = "the answer says whether the call is refused, and whether the collector waits"]
pub fn collect(record: &mut [u32], desk: &[u16], fields: &[u16], colours: &mut [u8]) -> u32 {
    // SAFETY: each pointer and length are those of a slice, so it is aligned and not null, and
    // leads to as many elements; the borrows keep the slices apart, and everybody else away from
    // them. Desk and fields are only read, the others are borrowed to be written.
    unsafe {
        turns_lent_collect(
            record.as_mut_ptr(),
            record.len(),
            desk.as_ptr(),
            desk.len(),
            fields.as_ptr(),
            fields.len(),
            colours.as_mut_ptr(),
            colours.len(),
        )
    }
}

/// The census: [`DONE`], with free, white, gray, black, held and floating cells in the six counts.
/// Nothing else is changed.
///
/// Refused with 1, also where the counts aren't 6 long; 2, where anything in the four parts is out
/// of range. The counts are then as they were.
#[must_use = "the answer says whether the call is refused"]
pub fn census(
    record: &[u32],
    desk: &[u16],
    fields: &[u16],
    colours: &[u8],
    counts: &mut [u32],
) -> u32 {
    // SAFETY: each pointer and length are those of a slice, so it is aligned and not null, and
    // leads to as many elements; the borrows keep the counts apart from the others, and everybody
    // else from writing to them. The four parts are only read, the counts are borrowed to be
    // written.
    unsafe {
        turns_lent_census(
            record.as_ptr(),
            record.len(),
            desk.as_ptr(),
            desk.len(),
            fields.as_ptr(),
            fields.len(),
            colours.as_ptr(),
            colours.len(),
            counts.as_mut_ptr(),
            counts.len(),
        )
    }
}

/// C, the most working turns that a cycle of a store of n cells and g pages takes:
/// (N + 1)² + 10N + g + 5. A cell that nobody can reach is free after at most 3 × C of them.
///
/// ```
/// assert_eq!(turns::cycle_bound(1, 1), 20);
/// assert_eq!(turns::cycle_bound(4096, 16), 16_826_390);
/// ```
#[must_use]
pub fn cycle_bound(n: u16, g: u16) -> u64 {
    // SAFETY: it takes two numbers, any numbers, and no memory.
    unsafe { turns_cycle_bound(n, g) }
}

/// The version that the archive is of: 10,000 × major + 100 × minor + patch. It fits this crate
/// where it is [`VERSION`](crate::VERSION).
///
/// ```
/// assert_eq!(turns::version(), turns::VERSION);
/// ```
#[must_use]
pub fn version() -> u32 {
    // SAFETY: it takes nothing.
    unsafe { turns_version() }
}
