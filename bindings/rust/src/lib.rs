//! Safe functions over `libcubesim.a`, the proved cube library: slices in, a `Result` out.
//!
//! A cube is `6 * n * n` bytes, its faces in the order U R F D L B. A move is a code: `width * 64 + kind * 4 + turn`; see [`code`].
//! What is refused, and when, is the table "Refusals" of the repository's docs/RULES.md.
//!
//! ```
//! use cubesim_proved as cubesim;
//!
//! let mut moves = [0u16; 16];
//! let count = cubesim::parse_scramble(3, b"R U R' U'", &mut moves)?;
//! let mut cube = [0u8; 54];
//! let mut work = [0u8; 54];
//! cubesim::solved(3, &mut cube)?;
//! for _ in 0..6 {
//!     cubesim::apply_moves(3, &mut cube, &mut work, &moves[..count])?;
//! }
//! assert!(cubesim::is_solved(3, &cube)?);
//! # Ok::<(), cubesim::Refusal>(())
//! ```

use std::fmt;

mod raw {
    extern "C" {
        pub fn cubesim_version() -> u64;
        pub fn cubesim_solved(n: u64, cube: *mut u8, cube_len: usize) -> u64;
        pub fn cubesim_solved_ids(n: u64, ids: *mut u16, ids_len: usize) -> u64;
        pub fn cubesim_is_solved(n: u64, cube: *const u8, cube_len: usize) -> u64;
        pub fn cubesim_sticker_index(n: u64, face: u8, index: u64) -> u64;
        pub fn cubesim_mask(n: u64, cube: *mut u8, cube_len: usize, ids: *const u16, ids_len: usize, keep: *const u8, keep_len: usize) -> u64;
        pub fn cubesim_apply_moves(n: u64, cube: *mut u8, cube_len: usize, work: *mut u8, work_len: usize, moves: *const u16, moves_len: usize) -> u64;
        pub fn cubesim_apply_moves_to_ids(n: u64, ids: *mut u16, ids_len: usize, work: *mut u16, work_len: usize, moves: *const u16, moves_len: usize) -> u64;
        pub fn cubesim_all_moves(n: u64, out: *mut u16, out_len: usize) -> u64;
        pub fn cubesim_parse_scramble(n: u64, text: *const u8, text_len: usize, out: *mut u16, out_len: usize) -> u64;
        pub fn cubesim_parse_algorithm(n: u64, text: *const u8, text_len: usize, out: *mut u16, out_len: usize) -> u64;
        pub fn cubesim_write_scramble(n: u64, moves: *const u16, moves_len: usize, out: *mut u8, out_len: usize) -> u64;
        pub fn cubesim_simplify_moves(n: u64, moves: *const u16, moves_len: usize, out: *mut u16, out_len: usize) -> u64;
        pub fn cubesim_invert_moves(n: u64, moves: *const u16, moves_len: usize, out: *mut u16, out_len: usize) -> u64;
        pub fn cubesim_pruning_table(n: u64, starts: *const u8, starts_len: usize, moves: *const u16, moves_len: usize, depth: u64, table: *mut u8, table_len: usize) -> u64;
        pub fn cubesim_ida_star(n: u64, cube: *const u8, cube_len: usize, table: *const u8, table_len: usize, depth: u64, moves: *const u16, moves_len: usize, limit: u64, work: *mut u8, work_len: usize, out: *mut u16, out_len: usize) -> u64;
    }
}

/// Why an entry refused its input. The exact condition of each number is in docs/RULES.md, "Refusals"; [`Refusal`] as text says it in short.
/// New versions may bring new numbers.
///
/// ```
/// let refused = cubesim_proved::is_solved(0, b"").unwrap_err();
/// assert_eq!((refused.number(), refused.to_string().as_str()), (1, "refused 1: the size is outside its range"));
/// ```
#[derive(Clone, Copy, Debug, Eq, Hash, PartialEq)]
#[non_exhaustive]
pub enum Refusal {
    /// 1
    Size,
    /// 2
    Length,
    /// 3
    Code,
    /// 5, from the parsers with the byte at which the token starts
    Width(Option<usize>),
    /// 6
    Room,
    /// 7
    Bounds,
    /// 8
    Table,
    /// 9
    Work,
    /// 10
    Index,
    /// 12, with the byte at which the letter should stand
    Letter(usize),
    /// 13, with the first digit's byte
    Digits(usize),
    /// 14, with the byte at which the token goes wrong behind its letter
    Ending(usize),
    /// 16, with the byte of the sign that is out of place, or the text's end where one is missing
    Sign(usize),
    /// 17, with the byte of the sign that opens a ninth level
    Level(usize),
}

impl Refusal {
    /// The refusal's number.
    pub fn number(self) -> u8 {
        match self {
            Refusal::Size => 1,
            Refusal::Length => 2,
            Refusal::Code => 3,
            Refusal::Width(_) => 5,
            Refusal::Room => 6,
            Refusal::Bounds => 7,
            Refusal::Table => 8,
            Refusal::Work => 9,
            Refusal::Index => 10,
            Refusal::Letter(_) => 12,
            Refusal::Digits(_) => 13,
            Refusal::Ending(_) => 14,
            Refusal::Sign(_) => 16,
            Refusal::Level(_) => 17,
        }
    }

    /// The byte of a refused text to look at, where the refusal carries it; it may be the text's end.
    pub fn place(self) -> Option<usize> {
        match self {
            Refusal::Letter(at) | Refusal::Digits(at) | Refusal::Ending(at) | Refusal::Sign(at) | Refusal::Level(at) => Some(at),
            Refusal::Width(at) => at,
            _ => None,
        }
    }

    fn of(number: u8, value: usize, placed: bool) -> Refusal {
        match number {
            1 => Refusal::Size,
            2 => Refusal::Length,
            3 => Refusal::Code,
            5 => Refusal::Width(if placed { Some(value) } else { None }),
            6 => Refusal::Room,
            7 => Refusal::Bounds,
            8 => Refusal::Table,
            9 => Refusal::Work,
            10 => Refusal::Index,
            12 => Refusal::Letter(value),
            13 => Refusal::Digits(value),
            14 => Refusal::Ending(value),
            16 => Refusal::Sign(value),
            17 => Refusal::Level(value),
            other => unreachable!("libcubesim.a has no refusal {other}"),
        }
    }
}

impl fmt::Display for Refusal {
    fn fmt(&self, f: &mut fmt::Formatter) -> fmt::Result {
        let text = match self {
            Refusal::Size => "the size is outside its range",
            Refusal::Length => "a slice is not as long as the cube needs it",
            Refusal::Code => "a code is no move",
            Refusal::Width(None) => "a width is outside its range",
            Refusal::Width(Some(_)) => "the token that starts here has a width that must be above 1 and below the size; without digits it is 2",
            Refusal::Room => "the output is too short",
            Refusal::Bounds => "too many candidates, or a limit or depth above 20",
            Refusal::Table => "a table is not whole entries with rising keys",
            Refusal::Work => "the work area is too short",
            Refusal::Index => "no such sticker or id",
            Refusal::Letter(_) => "a letter must stand here: U R F L D B, or x y z where no width stands before it",
            Refusal::Digits(_) => "the width that starts here must be one to three digits, the first not 0",
            Refusal::Ending(_) => "the token goes wrong here: after a width and its letter comes w, then at most one 2 or ', then a space or the end, in an algorithm also a sign",
            Refusal::Sign(_) => "a sign is wrong or missing here: ( closes with ), [ has one comma or colon and closes with ]",
            Refusal::Level(_) => "the group that opens here is nine deep, and at most eight may stand in each other: write an outer one out",
        };
        write!(f, "refused {}", self.number())?;
        if let Some(at) = self.place() {
            write!(f, " at {at}")?;
        }
        write!(f, ": {text}")
    }
}

impl std::error::Error for Refusal {}

fn taken(answer: u64, placed: bool) -> Result<usize, Refusal> {
    let (number, value) = ((answer & 255) as u8, (answer >> 8) as usize);
    if number == 0 {
        Ok(value)
    } else {
        Err(Refusal::of(number, value, placed))
    }
}

/// The version of this package.
pub const VERSION: &str = env!("CARGO_PKG_VERSION");

/// The version of the library that is linked: major, minor, patch. The repository's CHANGELOG.md says what a change of it means.
///
/// ```
/// let (major, minor, patch) = cubesim_proved::version();
/// assert_eq!(format!("{major}.{minor}.{patch}"), cubesim_proved::VERSION);
/// ```
pub fn version() -> (u64, u64, u64) {
    let told = unsafe { raw::cubesim_version() };
    (told / 65536, told / 256 % 256, told % 256)
}

/// The code of a move: kinds U 0, L 1, F 2, R 3, B 4, D 5, Uw 6, Lw 7, Fw 8, Rw 9, Bw 10, Dw 11, x 12, y 13, z 14; turns 1 to 3.
///
/// ```
/// assert_eq!(cubesim_proved::code(10, 11, 1), 685); // 10Dw
/// ```
pub const fn code(width: u16, kind: u16, turn: u16) -> u16 {
    width * 64 + kind * 4 + turn
}

/// Writes the solved cube.
///
/// ```
/// let mut cube = [0u8; 6];
/// cubesim_proved::solved(1, &mut cube)?;
/// assert_eq!(&cube, b"URFDLB");
/// # Ok::<(), cubesim_proved::Refusal>(())
/// ```
pub fn solved(n: usize, cube: &mut [u8]) -> Result<(), Refusal> {
    taken(unsafe { raw::cubesim_solved(n as u64, cube.as_mut_ptr(), cube.len()) }, false).map(|_| ())
}

/// Writes the ids of the solved cube: 0, 1, 2 and so on.
///
/// ```
/// let mut ids = [9u16; 6];
/// cubesim_proved::solved_ids(1, &mut ids)?;
/// assert_eq!(ids, [0, 1, 2, 3, 4, 5]);
/// # Ok::<(), cubesim_proved::Refusal>(())
/// ```
pub fn solved_ids(n: usize, ids: &mut [u16]) -> Result<(), Refusal> {
    taken(unsafe { raw::cubesim_solved_ids(n as u64, ids.as_mut_ptr(), ids.len()) }, false).map(|_| ())
}

/// Whether each face shows one byte.
///
/// ```
/// assert_eq!(cubesim_proved::is_solved(1, b"URFDLB"), Ok(true));
/// assert_eq!(cubesim_proved::is_solved(2, b"URFDLB"), Err(cubesim_proved::Refusal::Length));
/// ```
pub fn is_solved(n: usize, cube: &[u8]) -> Result<bool, Refusal> {
    taken(unsafe { raw::cubesim_is_solved(n as u64, cube.as_ptr(), cube.len()) }, false).map(|v| v == 1)
}

/// The index, from 0, of sticker number `index`, from 1, of a face given by its letter.
///
/// ```
/// assert_eq!(cubesim_proved::sticker_index(3, b'F', 1), Ok(18));
/// assert_eq!(cubesim_proved::sticker_index(3, b'F', 10), Err(cubesim_proved::Refusal::Index));
/// ```
pub fn sticker_index(n: usize, face: u8, index: usize) -> Result<usize, Refusal> {
    taken(unsafe { raw::cubesim_sticker_index(n as u64, face, index as u64) }, false)
}

/// Where the keep byte at a sticker's id is 0 its letter becomes X.
///
/// ```
/// let mut cube = *b"URFDLB";
/// cubesim_proved::mask(1, &mut cube, &[0, 1, 2, 3, 4, 5], &[1, 0, 1, 1, 1, 1])?;
/// assert_eq!(&cube, b"UXFDLB");
/// # Ok::<(), cubesim_proved::Refusal>(())
/// ```
pub fn mask(n: usize, cube: &mut [u8], ids: &[u16], keep: &[u8]) -> Result<(), Refusal> {
    let answer = unsafe { raw::cubesim_mask(n as u64, cube.as_mut_ptr(), cube.len(), ids.as_ptr(), ids.len(), keep.as_ptr(), keep.len()) };
    taken(answer, false).map(|_| ())
}

/// Every move in order, on a cube and a work area of the same length, which is zero afterwards. The list is checked whole first.
///
/// ```
/// let (mut cube, mut work) = (*b"URFDLB", [0u8; 6]);
/// cubesim_proved::apply_moves(1, &mut cube, &mut work, &[1])?;
/// assert_eq!(&cube, b"UBRDFL");
/// # Ok::<(), cubesim_proved::Refusal>(())
/// ```
pub fn apply_moves(n: usize, cube: &mut [u8], work: &mut [u8], moves: &[u16]) -> Result<(), Refusal> {
    let answer = unsafe { raw::cubesim_apply_moves(n as u64, cube.as_mut_ptr(), cube.len(), work.as_mut_ptr(), work.len(), moves.as_ptr(), moves.len()) };
    taken(answer, false).map(|_| ())
}

/// The same on ids.
///
/// ```
/// let (mut ids, mut work) = ([0u16, 1, 2, 3, 4, 5], [0u16; 6]);
/// cubesim_proved::apply_moves_to_ids(1, &mut ids, &mut work, &[1])?;
/// assert_eq!(ids, [0, 5, 1, 3, 2, 4]);
/// # Ok::<(), cubesim_proved::Refusal>(())
/// ```
pub fn apply_moves_to_ids(n: usize, ids: &mut [u16], work: &mut [u16], moves: &[u16]) -> Result<(), Refusal> {
    let answer = unsafe { raw::cubesim_apply_moves_to_ids(n as u64, ids.as_mut_ptr(), ids.len(), work.as_mut_ptr(), work.len(), moves.as_ptr(), moves.len()) };
    taken(answer, false).map(|_| ())
}

/// All moves of a size, `18 + 18 * (n / 2)` of them; the answer is their count.
///
/// ```
/// assert_eq!(cubesim_proved::all_moves(3, &mut [0u16; 36]), Ok(36));
/// assert_eq!(cubesim_proved::all_moves(3, &mut [0u16; 35]), Err(cubesim_proved::Refusal::Room));
/// ```
pub fn all_moves(n: usize, out: &mut [u16]) -> Result<usize, Refusal> {
    taken(unsafe { raw::cubesim_all_moves(n as u64, out.as_mut_ptr(), out.len()) }, false)
}

/// Reads a scramble by Article 12 of the WCA Regulations; the answer is the count of moves. There are never more moves than bytes. A refused text
/// is told by the first bad token's byte at fault, and the refusal as text says what may stand there.
///
/// ```
/// use cubesim_proved::{parse_scramble, Refusal};
/// let mut out = [0u16; 4];
/// assert_eq!(parse_scramble(4, b"R2 3Uw'", &mut out), Ok(2));
/// assert_eq!(out[..2], [14, 219]);
/// assert_eq!(parse_scramble(3, b"R 2R", &mut out), Err(Refusal::Ending(4)));
/// assert_eq!(parse_scramble(3, b"R 4Uw", &mut out), Err(Refusal::Width(Some(2))));
/// let refused = parse_scramble(4, b"R 02Uw", &mut out).unwrap_err();
/// assert_eq!((refused.number(), refused.place()), (13, Some(2)));
/// let told = |text: &[u8]| parse_scramble(4, text, &mut [0u16; 4]).unwrap_err().to_string();
/// assert_eq!(told(b"R 02Uw"), "refused 13 at 2: the width that starts here must be one to three digits, the first not 0");
/// assert_eq!(told(b"R 2x"), "refused 12 at 3: a letter must stand here: U R F L D B, or x y z where no width stands before it");
/// assert_eq!(told(b"R2'"), "refused 14 at 2: the token goes wrong here: after a width and its letter comes w, then at most one 2 or ', then a space or the end, in an algorithm also a sign");
/// assert_eq!(told(b"4Uw"), "refused 5 at 0: the token that starts here has a width that must be above 1 and below the size; without digits it is 2");
/// ```
pub fn parse_scramble(n: usize, text: &[u8], out: &mut [u16]) -> Result<usize, Refusal> {
    taken(unsafe { raw::cubesim_parse_scramble(n as u64, text.as_ptr(), text.len(), out.as_mut_ptr(), out.len()) }, true)
}

/// Reads an algorithm with groups, as coaches write it; the answer is the count of moves, each of which is in `out`. Tokens are those of
/// [`parse_scramble`]. `(A)` is A, with a digit 1 to 9 right after it A so many times; `[A, B]` is A, B, A inverted, B inverted; `[A: B]` is A, B, A
/// inverted. Groups stand at most 8 deep, and A and B may be empty. There may be more moves than bytes. A refused text is told by its first byte
/// at fault; [`Refusal::Room`] comes last.
///
/// ```
/// use cubesim_proved::{parse_algorithm, Refusal};
/// let mut out = [0u16; 6];
/// assert_eq!(parse_algorithm(3, b"[R, U]", &mut out), Ok(4));
/// assert_eq!(out[..4], [13, 1, 15, 3]); // R U R' U'
/// assert_eq!(parse_algorithm(3, b"[R: U2]", &mut out), Ok(3));
/// assert_eq!(out[..3], [13, 2, 15]); // R U2 R'
/// assert_eq!(parse_algorithm(3, b"(R U)3", &mut out), Ok(6));
/// assert_eq!(out, [13, 1, 13, 1, 13, 1]);
/// assert_eq!(parse_algorithm(3, b"(R U)4", &mut out), Err(Refusal::Room));
/// assert_eq!(parse_algorithm(3, b"(R]", &mut out), Err(Refusal::Sign(2)));
/// assert_eq!(parse_algorithm(3, b"[R 2R)", &mut out), Err(Refusal::Ending(5)));
/// let refused = parse_algorithm(3, b"(R U ", &mut out).unwrap_err();
/// assert_eq!((refused.number(), refused.place()), (16, Some(5)));
/// let told = |text: &[u8]| parse_algorithm(3, text, &mut [0u16; 4]).unwrap_err().to_string();
/// assert_eq!(told(b"[R]"), "refused 16 at 2: a sign is wrong or missing here: ( closes with ), [ has one comma or colon and closes with ]");
/// assert_eq!(told(b"((((((((("), "refused 17 at 8: the group that opens here is nine deep, and at most eight may stand in each other: write an outer one out");
/// ```
pub fn parse_algorithm(n: usize, text: &[u8], out: &mut [u16]) -> Result<usize, Refusal> {
    taken(unsafe { raw::cubesim_parse_algorithm(n as u64, text.as_ptr(), text.len(), out.as_mut_ptr(), out.len()) }, true)
}

/// Writes a list as a scramble; the answer is the count of bytes.
///
/// ```
/// let mut out = [0u8; 16];
/// let count = cubesim_proved::write_scramble(4, &[14, 219, 153], &mut out)?;
/// assert_eq!(&out[..count], b"R2 3Uw' Uw");
/// # Ok::<(), cubesim_proved::Refusal>(())
/// ```
pub fn write_scramble(n: usize, moves: &[u16], out: &mut [u8]) -> Result<usize, Refusal> {
    taken(unsafe { raw::cubesim_write_scramble(n as u64, moves.as_ptr(), moves.len(), out.as_mut_ptr(), out.len()) }, false)
}

/// Joins neighbours of equal kind and width until none join; the answer is the count. The output is at least as long as the list.
///
/// ```
/// let mut out = [9u16; 4];
/// assert_eq!(cubesim_proved::simplify_moves(3, &[13, 1, 3, 13], &mut out), Ok(1)); // R U U' R
/// assert_eq!(out, [14, 0, 0, 0]); // R2
/// ```
pub fn simplify_moves(n: usize, moves: &[u16], out: &mut [u16]) -> Result<usize, Refusal> {
    taken(unsafe { raw::cubesim_simplify_moves(n as u64, moves.as_ptr(), moves.len(), out.as_mut_ptr(), out.len()) }, false)
}

/// The list that undoes a list.
///
/// ```
/// let mut out = [0u16; 2];
/// assert_eq!(cubesim_proved::invert_moves(3, &[13, 2], &mut out), Ok(2)); // R U2
/// assert_eq!(out, [2, 15]); // U2 R'
/// ```
pub fn invert_moves(n: usize, moves: &[u16], out: &mut [u16]) -> Result<usize, Refusal> {
    taken(unsafe { raw::cubesim_invert_moves(n as u64, moves.as_ptr(), moves.len(), out.as_mut_ptr(), out.len()) }, false)
}

/// Builds a pruning table of entries of `6 * n * n + 1` bytes; the answer is their count. After [`Refusal::Room`] the table is all zero.
///
/// A table of more than some hundred entries needs 1,028 KiB of stack. A thread of Rust's has 2 MiB; one that is made with less takes more by
/// `std::thread::Builder::new().stack_size(2 << 20)`.
///
/// ```
/// let mut solved = [0u8; 54];
/// cubesim_proved::solved(3, &mut solved)?;
/// let halves = [2, 22, 10, 18, 6, 14]; // U2 D2 F2 B2 L2 R2
/// let mut table = [0u8; 385];
/// assert_eq!(cubesim_proved::pruning_table(3, &solved, &halves, 1, &mut table), Ok(7));
/// assert_eq!(cubesim_proved::pruning_table(3, &solved, &halves, 1, &mut table[..384]), Err(cubesim_proved::Refusal::Room));
/// # Ok::<(), cubesim_proved::Refusal>(())
/// ```
pub fn pruning_table(n: usize, starts: &[u8], moves: &[u16], depth: usize, table: &mut [u8]) -> Result<usize, Refusal> {
    let answer = unsafe { raw::cubesim_pruning_table(n as u64, starts.as_ptr(), starts.len(), moves.as_ptr(), moves.len(), depth as u64, table.as_mut_ptr(), table.len()) };
    taken(answer, false)
}

/// Searches for a list of at most `limit` candidates, no two neighbours of the same kind and width, that leads the cube to an entry with
/// number 0: `None`, or the count of moves, which then are the first of `out`. The work area has `(limit + 1) * 6 * n * n` bytes, the output
/// `limit` slots.
///
/// ```
/// # let mut solved = [0u8; 54];
/// # cubesim_proved::solved(3, &mut solved)?;
/// # let halves = [2, 22, 10, 18, 6, 14];
/// # let mut table = [0u8; 385];
/// # cubesim_proved::pruning_table(3, &solved, &halves, 1, &mut table)?;
/// let mut cube = solved;
/// cubesim_proved::apply_moves(3, &mut cube, &mut [0u8; 54], &[2, 22])?; // U2 D2
/// let (mut work, mut out) = ([0u8; 162], [0u16; 2]);
/// assert_eq!(cubesim_proved::ida_star(3, &cube, &table, 1, &halves, 2, &mut work, &mut out), Ok(Some(2)));
/// assert_eq!(out, [2, 22]);
/// assert_eq!(cubesim_proved::ida_star(3, &cube, &table, 1, &halves, 1, &mut work, &mut out), Ok(None));
/// # Ok::<(), cubesim_proved::Refusal>(())
/// ```
///
/// Two widths of a kind may be neighbours. A table of the goal alone, at depth 0:
///
/// ```
/// let mut goal = [0u8; 217];
/// cubesim_proved::solved(6, &mut goal[..216])?;
/// let (mut cube, mut scramble) = (goal[..216].to_vec(), [0u16; 2]);
/// cubesim_proved::parse_scramble(6, b"3Uw' 2Uw'", &mut scramble)?;
/// cubesim_proved::apply_moves(6, &mut cube, &mut [0u8; 216], &scramble)?;
/// let turns = [153, 154, 155, 217, 218, 219]; // 2Uw and 3Uw
/// let (mut work, mut out) = ([0u8; 648], [0u16; 2]);
/// assert_eq!(cubesim_proved::ida_star(6, &cube, &goal, 0, &turns, 2, &mut work, &mut out), Ok(Some(2)));
/// assert_eq!(out, [153, 217]); // 2Uw 3Uw
/// # Ok::<(), cubesim_proved::Refusal>(())
/// ```
#[allow(clippy::too_many_arguments)]
pub fn ida_star(n: usize, cube: &[u8], table: &[u8], depth: usize, moves: &[u16], limit: usize, work: &mut [u8], out: &mut [u16]) -> Result<Option<usize>, Refusal> {
    let answer = unsafe {
        raw::cubesim_ida_star(
            n as u64, cube.as_ptr(), cube.len(), table.as_ptr(), table.len(), depth as u64, moves.as_ptr(), moves.len(), limit as u64,
            work.as_mut_ptr(), work.len(), out.as_mut_ptr(), out.len(),
        )
    };
    taken(answer, false).map(|v| v.checked_sub(1))
}
