//! Alignments from BAM, SAM and CRAM files, by htslib: the field's own library reads the field's own files.
//!
//! What is declared here is what `htslib/hts.h` and `htslib/sam.h` have of it; the numbers of the structs have been where they are
//! since htslib 1.10, and `libhts.so.3`, which the loader holds a program to, keeps them there. Macros of the headers are not to
//! be had, so a record's bytes are taken apart here, in safe code. This module alone of the command line says `unsafe`.
#![allow(unsafe_code)]

use std::{
    error::Error,
    ffi::{c_char, c_int, CString},
    fmt, fs, io,
    os::unix::ffi::OsStrExt,
    path::Path,
    ptr::NonNull,
    slice,
};

// ---- What htslib's headers say

/// `htsFile`, which is htslib's own.
#[repr(C)]
struct File {
    _own: [u8; 0],
}

/// `sam_hdr_t`, which is htslib's own.
#[repr(C)]
struct Header {
    _own: [u8; 0],
}

/// The front of `htsFormat`.
#[repr(C)]
struct Format {
    _category: c_int,
    format: c_int,
}

impl Format {
    const SAM: c_int = 3;
    const BAM: c_int = 4;
    const CRAM: c_int = 6;
    const EMPTY: c_int = 15;
}

/// `bam1_core_t`.
#[repr(C)]
struct Core {
    pos: i64,
    tid: i32,
    _bin: u16,
    _qual: u8,
    _l_extranul: u8,
    flag: u16,
    l_qname: u16,
    n_cigar: u32,
    _l_qseq: i32,
    _mtid: i32,
    _mpos: i64,
    _isize: i64,
}

/// `bam1_t`. htslib alone makes one.
#[repr(C)]
struct Record {
    core: Core,
    _id: u64,
    data: *const u8,
    l_data: c_int,
    _m_data: u32,
    _mempolicy: u32,
}

const _: () = assert!(size_of::<Core>() == 48 && size_of::<Record>() == 80);

/// What `hts_check_EOF` says of an end marker that is there, and of a file whose kind has none.
const END_THERE: c_int = 1;
const NO_SUCH_END: c_int = 3;

/// `EFTYPE`, by which htslib says that it does not know a file's kind; Linux has `ENOEXEC` in its place.
const UNKNOWN_KIND: i32 = 8;

/// `CRAM_OPT_REQUIRED_FIELDS`, and the fields that are wanted: `SAM_QNAME`, `SAM_FLAG`, `SAM_RNAME`, `SAM_POS`, `SAM_CIGAR`.
const REQUIRED_FIELDS: c_int = 18;
const WANTED: c_int = 0x01 | 0x02 | 0x04 | 0x08 | 0x20;

// SAFETY: the types are those of htslib's headers.
#[link(name = "hts")]
unsafe extern "C" {
    fn hts_open(name: *const c_char, mode: *const c_char) -> *mut File;
    fn hts_close(file: *mut File) -> c_int;
    fn hts_get_format(file: *mut File) -> *const Format;
    fn hts_set_opt(file: *mut File, option: c_int, ...) -> c_int;
    fn hts_check_EOF(file: *mut File) -> c_int;
    fn sam_hdr_read(file: *mut File) -> *mut Header;
    fn sam_hdr_destroy(header: *mut Header);
    fn sam_read1(file: *mut File, header: *mut Header, record: *mut Record) -> c_int;
    fn bam_init1() -> *mut Record;
    fn bam_destroy1(record: *mut Record);
}

// ---- What the command line sees

/// One alignment.
#[derive(Clone, Debug, PartialEq, Eq)]
pub struct Alignment {
    /// The read's name.
    pub name: Vec<u8>,
    /// The flag of the SAM specification.
    pub flag: u16,
    /// Where it begins on the genome, zero-based; none without a reference sequence or a position.
    pub start: Option<i64>,
    /// The words of its CIGAR, along the genome.
    pub words: Vec<u32>,
}

/// Why a file's alignments are not read.
#[derive(Debug)]
pub enum Unread {
    /// The system's word.
    Closed(io::Error),
    /// A folder, a pipe or a device, whose end cannot be looked at.
    NoFile,
    /// It has no bytes.
    Empty,
    /// It is none of the three kinds.
    NoAlignments,
    /// It ends without the block, or container, that ends such a file.
    NoEnd,
    /// Its header is damaged or cut off.
    Header,
    /// An alignment is damaged or cut off: its number, from 1.
    Damaged(u64),
}

impl fmt::Display for Unread {
    fn fmt(&self, f: &mut fmt::Formatter<'_>) -> fmt::Result {
        match self {
            Unread::Closed(error) => error.fmt(f),
            Unread::NoFile => f.write_str("not a file; alignments are read from a file, as its end is looked at first"),
            Unread::Empty => f.write_str("the file is empty"),
            Unread::NoAlignments => f.write_str("not a BAM, SAM or CRAM file"),
            Unread::NoEnd => f.write_str("the file is cut off: its end marker is missing"),
            Unread::Header => f.write_str("the file is damaged or cut off in its header"),
            Unread::Damaged(number) => write!(f, "the file is damaged or cut off at alignment {number}"),
        }
    }
}

impl Error for Unread {}

/// What htslib made, and how it is given back.
struct Owned<T>(NonNull<T>, fn(NonNull<T>));

impl<T> Owned<T> {
    /// None where htslib made nothing.
    fn new(made: *mut T, back: fn(NonNull<T>)) -> Option<Owned<T>> {
        NonNull::new(made).map(|made| Owned(made, back))
    }

    fn pointer(&self) -> *mut T {
        self.0.as_ptr()
    }
}

impl<T> Drop for Owned<T> {
    fn drop(&mut self) {
        (self.1)(self.0);
    }
}

// SAFETY, of all four: what is handed over is htslib's own and lives; what is given back is not used again.

fn open(path: &Path) -> Result<Owned<File>, Unread> {
    let name = CString::new(path.as_os_str().as_bytes()).map_err(|error| Unread::Closed(error.into()))?;
    let file = unsafe { hts_open(name.as_ptr(), c"r".as_ptr()) };
    let close = |file: NonNull<File>| unsafe {
        hts_close(file.as_ptr());
    };
    Owned::new(file, close).ok_or_else(|| match io::Error::last_os_error() {
        error if error.raw_os_error() == Some(UNKNOWN_KIND) => Unread::NoAlignments,
        error => Unread::Closed(error),
    })
}

/// Whether the file is of the three kinds and has its end. A BAM file has a marker there; a text of SAM and the oldest CRAM files have
/// none, and what is cut off is seen where the last alignment is not whole.
fn look(file: &Owned<File>) -> Result<(), Unread> {
    let (format, end) = unsafe { ((*hts_get_format(file.pointer())).format, hts_check_EOF(file.pointer())) };
    match (format, end) {
        (Format::SAM | Format::BAM | Format::CRAM, END_THERE) => Ok(()),
        (Format::SAM | Format::CRAM, NO_SUCH_END) => Ok(()),
        (Format::SAM | Format::BAM | Format::CRAM, _) => Err(Unread::NoEnd),
        (Format::EMPTY, _) => Err(Unread::Empty),
        _ => Err(Unread::NoAlignments),
    }
}

fn header(file: &Owned<File>) -> Result<Owned<Header>, Unread> {
    // Of CRAM, just the fields that are wanted: then no reference sequence is looked for, here or on a server.
    let header = unsafe {
        hts_set_opt(file.pointer(), REQUIRED_FIELDS, WANTED);
        sam_hdr_read(file.pointer())
    };
    Owned::new(header, |header| unsafe { sam_hdr_destroy(header.as_ptr()) }).ok_or(Unread::Header)
}

fn record() -> Result<Owned<Record>, Unread> {
    Owned::new(unsafe { bam_init1() }, |record| unsafe { bam_destroy1(record.as_ptr()) })
        .ok_or_else(|| Unread::Closed(io::ErrorKind::OutOfMemory.into()))
}

/// The alignments of a file, in its order.
pub struct Alignments {
    record: Owned<Record>,
    header: Owned<Header>,
    file: Owned<File>,
    /// How many were asked for.
    number: u64,
}

impl Alignments {
    /// Opens a file and looks at its end.
    pub fn open(path: &Path) -> Result<Alignments, Unread> {
        // A name like `http:x` would be fetched, and `-` would be standard input: a whole path is neither.
        let path = fs::canonicalize(path).map_err(Unread::Closed)?;
        if !path.is_file() {
            return Err(Unread::NoFile);
        }
        let file = open(&path)?;
        look(&file)?;
        Ok(Alignments { record: record()?, header: header(&file)?, file, number: 0 })
    }
}

impl Iterator for Alignments {
    type Item = Result<Alignment, Unread>;

    fn next(&mut self) -> Option<Result<Alignment, Unread>> {
        // SAFETY: the three are htslib's own and live.
        let read = unsafe { sam_read1(self.file.pointer(), self.header.pointer(), self.record.pointer()) };
        if read == -1 {
            return None;
        }
        // SAFETY: what a record has, it has until the next is read; the data is as long as it says.
        let (core, data) = unsafe {
            let record = self.record.0.as_ref();
            let length = if record.data.is_null() { 0 } else { usize::try_from(record.l_data).unwrap_or(0) };
            (&record.core, if length == 0 { &[] } else { slice::from_raw_parts(record.data, length) })
        };
        self.number += 1;
        let alignment = if read < 0 { None } else { alignment(core, data) };
        Some(alignment.ok_or(Unread::Damaged(self.number)))
    }
}

/// An alignment, where its bytes are as long as its numbers say.
fn alignment(core: &Core, data: &[u8]) -> Option<Alignment> {
    let (name, rest) = data.split_at_checked(usize::from(core.l_qname))?;
    let words = rest.get(..usize::try_from(core.n_cigar).ok()?.checked_mul(4)?)?;
    // htslib keeps them in the machine's order.
    let word = |bytes: &[u8]| u32::from_ne_bytes(bytes.try_into().expect("four bytes"));
    Some(Alignment {
        // The name ends with one 0 or more.
        name: name.split(|&byte| byte == 0).next().unwrap_or_default().to_vec(),
        flag: core.flag,
        start: (core.tid >= 0 && core.pos >= 0).then_some(core.pos),
        words: words.chunks_exact(4).map(word).collect(),
    })
}

#[cfg(test)]
mod tests {
    use super::*;
    use std::{env, process};

    /// The alignments of a text.
    fn read(name: &str, lines: &str) -> Vec<Alignment> {
        let path = env::temp_dir().join(format!("pulindraxi-{}-{name}.sam", process::id()));
        fs::write(&path, format!("@HD\tVN:1.6\n@SQ\tSN:chr1\tLN:300000000\n{lines}")).unwrap();
        let alignments = Alignments::open(&path).unwrap().collect::<Result<Vec<_>, _>>().unwrap();
        fs::remove_file(path).unwrap();
        alignments
    }

    /// Every number that is taken from htslib's structs has a value of its own, and names of every length modulo 4 stand before the words.
    #[test]
    fn the_structs_are_htslibs() {
        for name in ["a", "ab", "abc", "abcd", "NM_000059.4"] {
            let line =
                format!("{name}\t1745\tchr1\t123456789\t37\t3M2I1D70000N4=\tchr1\t200000001\t99\tACGTACGTA\t*\n");
            let expected = Alignment {
                name: name.into(),
                flag: 1745,
                start: Some(123_456_788),
                words: vec![3 << 4, 2 << 4 | 1, 1 << 4 | 2, 70_000 << 4 | 3, 4 << 4 | 7],
            };
            assert_eq!(read(name, &line.repeat(2)), [expected.clone(), expected]);
        }
    }

    #[test]
    fn what_is_not_there_is_none() {
        let lines = "lost\t4\t*\t0\t0\t*\t*\t0\t0\t*\t*\nbare\t0\tchr1\t1\t0\t5M\t*\t0\t0\t*\t*\n";
        let [lost, bare] = &read("none", lines)[..] else { panic!("two alignments") };
        assert_eq!((lost.start, &lost.words[..]), (None, &[][..]));
        assert_eq!((bare.start, &bare.words[..]), (Some(0), &[5 << 4][..]));
    }
}
