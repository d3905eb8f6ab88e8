//! The parser expat, asked whether texts are well formed XML and what stands in their elements.

use std::ffi::{c_char, c_int, c_long, c_void, CStr};
use std::{ptr, slice};

use crate::call::Trouble;
use crate::reader::ElementText;

const ERROR: c_int = 0;
/// Expat's number for something that follows a document.
const JUNK_AFTER_DOCUMENT: c_int = 9;

type Begins = extern "C" fn(*mut c_void, *const c_char, *const *const c_char);
type Ends = extern "C" fn(*mut c_void, *const c_char);
type GoesOn = extern "C" fn(*mut c_void, *const c_char, c_int);

#[link(name = "expat")]
extern "C" {
    fn XML_ParserCreate(encoding: *const c_char) -> *mut c_void;
    fn XML_SetUserData(parser: *mut c_void, data: *mut c_void);
    fn XML_SetElementHandler(parser: *mut c_void, begins: Begins, ends: Ends);
    fn XML_SetCharacterDataHandler(parser: *mut c_void, goes_on: GoesOn);
    fn XML_Parse(parser: *mut c_void, text: *const c_char, length: c_int, last: c_int) -> c_int;
    fn XML_GetErrorCode(parser: *mut c_void) -> c_int;
    fn XML_GetCurrentByteIndex(parser: *mut c_void) -> c_long;
    fn XML_ErrorString(code: c_int) -> *const c_char;
    fn XML_ParserFree(parser: *mut c_void);
}

/// What the parser has told so far.
#[derive(Default)]
struct Seen {
    open: Vec<ElementText>,
    closed: Vec<ElementText>,
}

/// The parser hands back what it was given, which outlives it.
fn seen<'a>(data: *mut c_void) -> &'a mut Seen {
    unsafe { &mut *data.cast() }
}

extern "C" fn begins(data: *mut c_void, name: *const c_char, _: *const *const c_char) {
    let name = unsafe { CStr::from_ptr(name) }.to_bytes().to_vec();
    seen(data).open.push(ElementText { name, text: Vec::new() });
}

extern "C" fn ends(data: *mut c_void, _: *const c_char) {
    let Seen { open, closed } = seen(data);
    closed.extend(open.pop());
}

extern "C" fn goes_on(data: *mut c_void, text: *const c_char, length: c_int) {
    let text = unsafe { slice::from_raw_parts(text.cast(), length as usize) };
    seen(data).open.last_mut().expect("text stands in an element").text.extend_from_slice(text);
}

/// Where a text stops being one document, and by which of expat's numbers.
struct Stop {
    code: c_int,
    at: usize,
}

/// One document, with whatever XML allows around it.
fn document(text: &[u8], told: &mut Seen) -> Result<(), Stop> {
    let length = c_int::try_from(text.len()).expect("texts are short");
    // the parser is made, used and freed here, and reads exactly the text's bytes
    unsafe {
        let parser = XML_ParserCreate(ptr::null());
        assert!(!parser.is_null(), "no memory for a parser");
        XML_SetUserData(parser, ptr::from_mut(told).cast());
        XML_SetElementHandler(parser, begins, ends);
        XML_SetCharacterDataHandler(parser, goes_on);
        let status = XML_Parse(parser, text.as_ptr().cast(), length, 1);
        let stop =
            Stop { code: XML_GetErrorCode(parser), at: XML_GetCurrentByteIndex(parser).max(0) as usize };
        XML_ParserFree(parser);
        if status == ERROR {
            Err(stop)
        } else {
            Ok(())
        }
    }
}

/// One document after another, and the elements of all in the order of their ends. What follows a document has to be
/// one itself, and expat is asked anew there.
pub fn documents(text: &[u8]) -> Result<Vec<ElementText>, Trouble> {
    let mut told = Seen::default();
    let mut from = 0;
    loop {
        match document(&text[from..], &mut told) {
            Ok(()) => return Ok(told.closed),
            Err(Stop { code: JUNK_AFTER_DOCUMENT, at }) if at > 0 => from += at,
            Err(Stop { code, at }) => {
                let reason = unsafe { CStr::from_ptr(XML_ErrorString(code)) };
                return Err(format!("expat stops at {}: {}", from + at, reason.to_string_lossy()));
            }
        }
    }
}
