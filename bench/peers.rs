//! msgpack-c, libcbor, msgpuck and libmpack, as far as they are installed, each by its C file.

use crate::documents::Format;

type OfDocument = unsafe extern "C" fn(*const u8, usize) -> i32;

pub struct Peer {
    pub name: &'static str,
    pub format: Format,
    decode: OfDocument,
    /// None if nothing is built that could be encoded.
    encoding: Option<Encoding>,
}

pub struct Encoding {
    keep: OfDocument,
    encode: unsafe extern "C" fn() -> usize,
    forget: unsafe extern "C" fn(),
}

#[cfg(msgpack)]
extern "C" {
    fn msgpack_decode(document: *const u8, size: usize) -> i32;
    fn msgpack_keep(document: *const u8, size: usize) -> i32;
    fn msgpack_encode() -> usize;
    fn msgpack_forget();
}

#[cfg(cbor)]
extern "C" {
    fn libcbor_decode(document: *const u8, size: usize) -> i32;
    fn libcbor_keep(document: *const u8, size: usize) -> i32;
    fn libcbor_encode() -> usize;
    fn libcbor_forget();
}

#[cfg(msgpuck)]
extern "C" {
    fn msgpuck_check(document: *const u8, size: usize) -> i32;
}

#[cfg(mpack)]
extern "C" {
    fn libmpack_tokens(document: *const u8, size: usize) -> i32;
}

pub const ALL: &[Peer] = &[
    #[cfg(msgpack)]
    Peer {
        name: "msgpack-c",
        format: crate::documents::MSGPACK,
        decode: msgpack_decode,
        encoding: Some(Encoding {
            keep: msgpack_keep,
            encode: msgpack_encode,
            forget: msgpack_forget,
        }),
    },
    #[cfg(cbor)]
    Peer {
        name: "libcbor",
        format: crate::documents::CBOR,
        decode: libcbor_decode,
        encoding: Some(Encoding {
            keep: libcbor_keep,
            encode: libcbor_encode,
            forget: libcbor_forget,
        }),
    },
    #[cfg(msgpuck)]
    Peer {
        name: "msgpuck",
        format: crate::documents::MSGPACK,
        decode: msgpuck_check,
        encoding: None,
    },
    #[cfg(mpack)]
    Peer {
        name: "libmpack",
        format: crate::documents::MSGPACK,
        decode: libmpack_tokens,
        encoding: None,
    },
];

impl Peer {
    /// Decodes a document and frees what it built. Whether the document was whole.
    pub fn decode(&self, document: &[u8]) -> bool {
        // The document is valid for its length.
        unsafe { (self.decode)(document.as_ptr(), document.len()) == 1 }
    }

    /// Decodes a document and keeps it. A peer keeps one at a time.
    pub fn keep(&'static self, document: &[u8]) -> Option<Kept> {
        let encoding = self.encoding.as_ref()?;
        // As above.
        let kept = unsafe { (encoding.keep)(document.as_ptr(), document.len()) == 1 };
        kept.then_some(Kept(encoding))
    }
}

/// A document that was decoded, to be encoded again and again.
pub struct Kept(&'static Encoding);

impl Kept {
    /// Gives the length.
    pub fn encode(&self) -> usize {
        // The document is kept as long as this value is.
        unsafe { (self.0.encode)() }
    }
}

impl Drop for Kept {
    fn drop(&mut self) {
        // As above.
        unsafe { (self.0.forget)() }
    }
}
