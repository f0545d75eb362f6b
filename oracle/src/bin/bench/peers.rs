//! Regular-expression engines that a user would pick instead: PCRE2 with its JIT compiler, and Oniguruma.
//!
//! They are loaded while running, so that nothing has to be installed to build. Each runs the pattern in two spellings: with
//! every class written out as ranges from UnicodeData.txt, and as published, with the engine's own classes.

use oracle::Options;
use std::ffi::{CStr, CString, c_char, c_int, c_void};
use std::path::PathBuf;
use std::ptr::{null, null_mut};
use std::time::Instant;
use std::{env, fs};

const SUFFIX: &str = "(?i:'s|'t|'re|'ve|'m|'ll|'d)?";

/// How the classes of the pattern are written.
#[derive(Clone, Copy, PartialEq, Eq)]
pub enum Spelling {
    Ranges,
    Published,
}

/// How a walk went.
pub enum Walked {
    Whole,
    /// No match, or an error of the engine, at this place.
    Stopped(usize),
    OutOfTime,
}

/// An engine that has compiled the pattern.
pub trait Engine {
    /// The end of the match that begins at `start`.
    fn end(&self, text: &[u8], start: usize) -> Option<usize>;

    /// Every end of a walk from zero by repeated anchored matches. The text is checked first, as the engines trust it.
    fn walk(&self, text: &[u8], ends: &mut Vec<u32>, until: Option<Instant>) -> Walked {
        ends.clear();
        if std::str::from_utf8(text).is_err() {
            return Walked::Stopped(0);
        }
        let mut at = 0;
        while at < text.len() {
            match self.end(text, at) {
                Some(end) if end > at => at = end,
                _ => return Walked::Stopped(at),
            }
            ends.push(at as u32);
            if until.is_some_and(|until| Instant::now() > until) {
                return Walked::OutOfTime;
            }
        }
        Walked::Whole
    }
}

/// What makes an engine of a pattern, or says why it cannot.
type Load = fn(&str, Spelling) -> Result<Box<dyn Engine>, String>;

/// An engine's name, and how it is made.
pub struct Peer {
    pub name: &'static str,
    spelling: Spelling,
    load: Load,
}

pub const PEERS: [Peer; 4] = [
    Peer { name: "PCRE2 JIT, ranges", spelling: Spelling::Ranges, load: Pcre2::load },
    Peer { name: "PCRE2 JIT, `\\p`", spelling: Spelling::Published, load: Pcre2::load },
    Peer { name: "Oniguruma, ranges", spelling: Spelling::Ranges, load: Oniguruma::load },
    Peer { name: "Oniguruma, `\\p`", spelling: Spelling::Published, load: Oniguruma::load },
];

impl Peer {
    /// The engine with the pattern for these options, or why there is none.
    pub fn engine(&self, o: Options) -> Result<Box<dyn Engine>, String> {
        (self.load)(&pattern(o, self.spelling)?, self.spelling)
    }
}

/// The published pattern with document 01's replacements for the options. The form of digit mode 2 looks only ahead.
fn pattern(o: Options, spelling: Spelling) -> Result<String, String> {
    let classes = Classes::new(spelling)?;
    let [l, m, n, s] = ["L", "M", "N", "s"].map(|name| classes.named(name));
    let [upper, title, lower, modifier, other] = ["Lu", "Lt", "Ll", "Lm", "Lo"].map(|name| classes.named(name));
    let (high, low) = (format!("[{upper}{title}{modifier}{other}{m}]"), format!("[{lower}{modifier}{other}{m}]"));
    let suffix = if o.contractions { SUFFIX } else { "" };
    let tail = if o.slash { r"[\r\n/]*" } else { r"[\r\n]*" };
    let digits = match o.digits {
        0 => format!("[{n}]"),
        1 => format!("[{n}]{{1,3}}"),
        _ => format!("[{n}]{{1,3}}(?=(?:[{n}]{{3}})*(?![{n}]))"),
    };
    Ok([
        format!(r"[^\r\n{l}{n}]?{high}*{low}+{suffix}"),
        format!(r"[^\r\n{l}{n}]?{high}+{low}*{suffix}"),
        digits,
        format!(r" ?[^{s}{l}{n}]+{tail}"),
        format!(r"[{s}]*[\r\n]+"),
        format!(r"[{s}]+(?![^{s}])"),
        format!(r"[{s}]+"),
    ]
    .join("|"))
}

/// The rows of the official files, or nothing where the engine's own classes are used.
enum Classes {
    Own,
    Official { categories: Vec<(u32, u32, String)>, space: Vec<(u32, u32)> },
}

impl Classes {
    fn new(spelling: Spelling) -> Result<Classes, String> {
        if spelling == Spelling::Published {
            return Ok(Classes::Own);
        }
        let folder = PathBuf::from(env::var_os("UNICODE_DATA").unwrap_or_else(|| "/usr/share/unicode".into()));
        let read = |name| fs::read_to_string(folder.join(name)).map_err(|_| format!("{name} is missing"));
        let categories = categories(&read("UnicodeData.txt")?);
        let space = read("PropList.txt")?.lines().filter_map(space_row).collect();
        Ok(Classes::Official { categories, space })
    }

    /// What stands in brackets for a category, the first letter of one, or White_Space (`s`).
    fn named(&self, name: &str) -> String {
        match self {
            Classes::Own if name == "s" => r"\s".into(),
            Classes::Own => format!(r"\p{{{name}}}"),
            Classes::Official { space, .. } if name == "s" => ranges(space.iter().copied()),
            Classes::Official { categories, .. } => {
                ranges(categories.iter().filter(|row| row.2.starts_with(name)).map(|row| (row.0, row.1)))
            }
        }
    }
}

/// General_Category of UnicodeData.txt: first and last value, and the category. The rest is Cn, which is in no class.
fn categories(file: &str) -> Vec<(u32, u32, String)> {
    let (mut rows, mut first) = (Vec::new(), None);
    for line in file.lines() {
        let fields: Vec<&str> = line.split(';').collect();
        let value = hex(fields[0]);
        if fields[1].ends_with(", First>") {
            first = Some(value);
        } else {
            rows.push((first.take().unwrap_or(value), value, fields[2].to_string()));
        }
    }
    rows
}

fn space_row(line: &str) -> Option<(u32, u32)> {
    let (values, property) = line.split_once(';')?;
    if property.split('#').next()?.trim() != "White_Space" {
        return None;
    }
    let (first, last) = values.trim().split_once("..").unwrap_or((values.trim(), values.trim()));
    Some((hex(first), hex(last)))
}

fn hex(digits: &str) -> u32 {
    u32::from_str_radix(digits, 16).expect("the official files write values in hex")
}

/// The rows, neighbours made one, as an engine reads them.
fn ranges(rows: impl Iterator<Item = (u32, u32)>) -> String {
    let mut joined: Vec<(u32, u32)> = Vec::new();
    for (first, last) in rows {
        match joined.last_mut() {
            Some(row) if row.1 + 1 == first => row.1 = last,
            _ => joined.push((first, last)),
        }
    }
    joined.iter().map(|(first, last)| format!(r"\x{{{first:X}}}-\x{{{last:X}}}")).collect()
}

unsafe extern "C" {
    fn dlopen(name: *const c_char, flags: c_int) -> *mut c_void;
    fn dlsym(library: *mut c_void, name: *const c_char) -> *mut c_void;
}
const RTLD_NOW: c_int = 2;

/// A library loaded while running. It stays loaded to the end of the program.
struct Loaded(*mut c_void);

impl Loaded {
    fn open(name: &str) -> Result<Loaded, String> {
        let name = CString::new(name).expect("a name without a zero byte");
        // SAFETY: the name is a C string; the two libraries do nothing when loaded.
        let library = unsafe { dlopen(name.as_ptr(), RTLD_NOW) };
        if library.is_null() { Err("not installed".into()) } else { Ok(Loaded(library)) }
    }

    /// The address of a function or of a constant.
    fn address(&self, name: &str) -> Result<*mut c_void, String> {
        let c_name = CString::new(name).expect("a name without a zero byte");
        // SAFETY: the library is open and the name is a C string.
        let address = unsafe { dlsym(self.0, c_name.as_ptr()) };
        if address.is_null() { Err(format!("{name} is missing")) } else { Ok(address) }
    }

    /// # Safety
    /// `F` must be the type of the C function of this name.
    unsafe fn function<F: Copy>(&self, name: &str) -> Result<F, String> {
        assert_eq!(size_of::<F>(), size_of::<*mut c_void>());
        let address = self.address(name)?;
        // SAFETY: a function's pointer is as wide as any pointer, and the caller answers for the type.
        Ok(unsafe { std::mem::transmute_copy(&address) })
    }
}

type Pcre2Compile = unsafe extern "C" fn(*const u8, usize, u32, *mut c_int, *mut usize, *mut c_void) -> *mut c_void;
type Pcre2JitCompile = unsafe extern "C" fn(*mut c_void, u32) -> c_int;
type Pcre2Create = unsafe extern "C" fn(*mut c_void) -> *mut c_void;
type Pcre2DataCreate = unsafe extern "C" fn(u32, *mut c_void) -> *mut c_void;
type Pcre2StackCreate = unsafe extern "C" fn(usize, usize, *mut c_void) -> *mut c_void;
type Pcre2StackAssign = unsafe extern "C" fn(*mut c_void, *mut c_void, *mut c_void);
type Pcre2Ovector = unsafe extern "C" fn(*mut c_void) -> *mut usize;
type Pcre2Match =
    unsafe extern "C" fn(*const c_void, *const u8, usize, usize, u32, *mut c_void, *mut c_void) -> c_int;
type Pcre2Config = unsafe extern "C" fn(u32, *mut c_void) -> c_int;

const PCRE2_ANCHORED: u32 = 0x8000_0000;
const PCRE2_UTF: u32 = 0x0008_0000;
const PCRE2_UCP: u32 = 0x0002_0000;
const PCRE2_JIT_COMPLETE: u32 = 1;
const PCRE2_CONFIG_VERSION: u32 = 11;
const PCRE2_LIBRARY: &str = "libpcre2-8.so.0";
/// Room for the compiled code's own stack, so that long runs do not end a match.
const JIT_STACK: (usize, usize) = (1 << 16, 1 << 28);

/// A pattern compiled by PCRE2, with the place where a match is put. It is kept to the end of the program.
struct Pcre2 {
    code: *mut c_void,
    data: *mut c_void,
    context: *mut c_void,
    place: *mut usize,
    run: Pcre2Match,
}

impl Pcre2 {
    fn load(pattern: &str, spelling: Spelling) -> Result<Box<dyn Engine>, String> {
        let library = Loaded::open(PCRE2_LIBRARY)?;
        let own = if spelling == Spelling::Published { PCRE2_UCP } else { 0 };
        // SAFETY: the types are those of pcre2.h; every pointer handed over comes from PCRE2 or may be null.
        unsafe {
            let compile: Pcre2Compile = library.function("pcre2_compile_8")?;
            let (mut error, mut at) = (0, 0);
            let options = PCRE2_ANCHORED | PCRE2_UTF | own;
            let code = compile(pattern.as_ptr(), pattern.len(), options, &mut error, &mut at, null_mut());
            if code.is_null() {
                return Err(format!("PCRE2 refuses the pattern: error {error} at {at}"));
            }
            let jit: Pcre2JitCompile = library.function("pcre2_jit_compile_8")?;
            if jit(code, PCRE2_JIT_COMPLETE) != 0 {
                return Err("PCRE2 has no JIT here".into());
            }
            let data = library.function::<Pcre2DataCreate>("pcre2_match_data_create_8")?(1, null_mut());
            let place = library.function::<Pcre2Ovector>("pcre2_get_ovector_pointer_8")?(data);
            let run = library.function("pcre2_jit_match_8")?;
            Ok(Box::new(Pcre2 { code, data, context: Pcre2::context(&library)?, place, run }))
        }
    }

    /// A match context with a large stack for the compiled code.
    fn context(library: &Loaded) -> Result<*mut c_void, String> {
        // SAFETY: as above.
        unsafe {
            let context = library.function::<Pcre2Create>("pcre2_match_context_create_8")?(null_mut());
            let create: Pcre2StackCreate = library.function("pcre2_jit_stack_create_8")?;
            let stack = create(JIT_STACK.0, JIT_STACK.1, null_mut());
            library.function::<Pcre2StackAssign>("pcre2_jit_stack_assign_8")?(context, null_mut(), stack);
            Ok(context)
        }
    }

    fn version() -> Result<String, String> {
        let mut room = [0u8; 64];
        // SAFETY: the version is a C string of fewer than 64 bytes.
        let config: Pcre2Config = unsafe { Loaded::open(PCRE2_LIBRARY)?.function("pcre2_config_8")? };
        unsafe { config(PCRE2_CONFIG_VERSION, room.as_mut_ptr().cast()) };
        let text = CStr::from_bytes_until_nul(&room).map_err(|_| "no version".to_string())?;
        Ok(text.to_string_lossy().into_owned())
    }
}

impl Engine for Pcre2 {
    fn end(&self, text: &[u8], start: usize) -> Option<usize> {
        // SAFETY: the text was checked to be UTF-8, and `place` is the two numbers of `data`.
        unsafe {
            let found = (self.run)(self.code, text.as_ptr(), text.len(), start, 0, self.data, self.context);
            (found > 0).then(|| *self.place.add(1))
        }
    }
}

type OnigInitialize = unsafe extern "C" fn(*const *mut c_void, c_int) -> c_int;
type OnigNew = unsafe extern "C" fn(
    *mut *mut c_void,
    *const u8,
    *const u8,
    u32,
    *mut c_void,
    *mut c_void,
    *mut [usize; 3],
) -> c_int;
type OnigMatch = unsafe extern "C" fn(*mut c_void, *const u8, *const u8, *const u8, *mut c_void, u32) -> c_int;
type OnigVersion = unsafe extern "C" fn() -> *const c_char;

const ONIG_LIBRARY: &str = "libonig.so.5";

/// A pattern compiled by Oniguruma. It is kept to the end of the program.
struct Oniguruma {
    code: *mut c_void,
    run: OnigMatch,
}

impl Oniguruma {
    fn load(pattern: &str, _: Spelling) -> Result<Box<dyn Engine>, String> {
        let library = Loaded::open(ONIG_LIBRARY)?;
        let encoding = library.address("OnigEncodingUTF8")?;
        let syntax = library.address("OnigSyntaxOniguruma")?;
        let (mut code, mut error) = (null_mut(), [0; 3]);
        let text = pattern.as_bytes().as_ptr_range();
        // SAFETY: the types are those of oniguruma.h; encoding and syntax are its own constants.
        unsafe {
            library.function::<OnigInitialize>("onig_initialize")?(&encoding, 1);
            let new: OnigNew = library.function("onig_new")?;
            match new(&mut code, text.start, text.end, 0, encoding, syntax, &mut error) {
                0 => Ok(Box::new(Oniguruma { code, run: library.function("onig_match")? })),
                number => Err(format!("Oniguruma refuses the pattern: error {number}")),
            }
        }
    }

    fn version() -> Result<String, String> {
        // SAFETY: the version is a C string that stays.
        unsafe {
            let version: OnigVersion = Loaded::open(ONIG_LIBRARY)?.function("onig_version")?;
            Ok(CStr::from_ptr(version()).to_string_lossy().into_owned())
        }
    }
}

impl Engine for Oniguruma {
    fn end(&self, text: &[u8], start: usize) -> Option<usize> {
        let whole = text.as_ptr_range();
        // SAFETY: start is in the text, which was checked to be UTF-8; no region is asked for.
        let length = unsafe { (self.run)(self.code, whole.start, whole.end, text[start..].as_ptr(), null::<u8>() as _, 0) };
        usize::try_from(length).ok().map(|length| start + length)
    }
}

/// The versions of the engines, or why one is not there.
pub fn versions() -> String {
    let told = |version: Result<String, String>| version.unwrap_or_else(|why| why);
    format!("PCRE2 {}, Oniguruma {}", told(Pcre2::version()), told(Oniguruma::version()))
}
