//! The messages of `bench/run` as the Rust crate `asn1` reads them: DER by the types, with no constraint tested. It has
//! no SET; of lists in lists each is read once.
use asn1::{Asn1Read, Asn1Readable, Enumerated, IA5String, SequenceOf, SetOf, Utf8String};
use std::ffi::{c_char, c_int, CStr};

#[derive(Asn1Read)]
struct Order<'a> {
    #[implicit(0, required)]
    _id: i64,
    #[implicit(1, required)]
    _kind: Enumerated,
    #[implicit(2)]
    #[default(1)]
    _quantity: i64,
    #[implicit(3)]
    _note: Option<Utf8String<'a>>,
    #[implicit(4, required)]
    _lines: SequenceOf<'a, i64>,
}

macro_rules! lists {
    ($lifetime:lifetime) => { i64 };
    ($lifetime:lifetime + $($more:tt)*) => { SequenceOf<$lifetime, lists!($lifetime $($more)*)> };
}

type Nest<'a> = lists!('a + + + + + + + + + + + + + + + + + + + + + + + + + + + + + +);

/// A message, as bench/peer.h has it.
#[repr(C)]
pub struct Message {
    octets: *const u8,
    end: usize,
}

fn reads<'a, T: Asn1Readable<'a>>(message: &'a Message) -> c_int {
    // SAFETY: the harness hands in as many octets as it says, and keeps them while they are read.
    let octets = unsafe { std::slice::from_raw_parts(message.octets, message.end) };
    asn1::parse_single::<T>(octets).is_ok().into()
}

extern "C" fn order(message: Message) -> c_int {
    reads::<Order>(&message)
}

extern "C" fn nest(message: Message) -> c_int {
    reads::<Nest>(&message)
}

extern "C" fn text(message: Message) -> c_int {
    reads::<IA5String>(&message)
}

extern "C" fn utf8(message: Message) -> c_int {
    reads::<Utf8String>(&message)
}

extern "C" fn set_of(message: Message) -> c_int {
    reads::<SetOf<i64>>(&message)
}

/// The reader of a case, or none.
///
/// # Safety
///
/// The name ends with an octet 0.
#[no_mangle]
pub unsafe extern "C" fn reader_of(name: *const c_char) -> Option<extern "C" fn(Message) -> c_int> {
    match CStr::from_ptr(name).to_bytes() {
        b"order" | b"bulk" => Some(order),
        b"nest" => Some(nest),
        b"text" => Some(text),
        b"utf8" => Some(utf8),
        b"set-of" => Some(set_of),
        _ => None,
    }
}
