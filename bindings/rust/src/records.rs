//! Records as JSON, the texts of links, and files as servers export them.
use crate::faults::{CheckError, CheckFault, JsonError, JsonFault, LinkFault, RecordJsonFault};
use crate::framing::{Reader, filled};
use crate::sys;
use crate::values::Cid;

/// What is proved to be UTF-8.
fn text_of(bytes: Vec<u8>) -> String {
    String::from_utf8(bytes).expect("UTF-8")
}

/// The one JSON text of a record, by the AT Protocol's data model: its keys in the order of DAG-CBOR, no spaces, links as
/// `{"$link": ..}` and bytes as `{"$bytes": ..}`.
///
/// ```
/// use tizulgech::{RecordJsonFault, record_json};
/// assert_eq!(record_json(b"\xa1\x64text\x65hello")?, r#"{"text":"hello"}"#);
/// assert_eq!(record_json(b"\xa1\x65$link\xf6"), Err(RecordJsonFault::NoForm));
/// # Ok::<(), RecordJsonFault>(())
/// ```
pub fn record_json(record: &[u8]) -> Result<String, RecordJsonFault> {
    filled(2 * record.len() + 64, |out, size| sys::record_json(record, out, size)).map(text_of).map_err(RecordJsonFault::of)
}

/// The record in DAG-CBOR that a JSON text is, of any layout; or its first fault and the way to it.
///
/// ```
/// use tizulgech::{JsonFault, json_record};
/// assert_eq!(json_record(r#"{ "text": "hello" }"#)?, b"\xa1\x64text\x65hello");
/// let refused = json_record(r#"{"embed": {"images": [{"size": 1.5}]}}"#).unwrap_err();
/// assert_eq!((refused.fault, refused.path.as_str()), (JsonFault::Float, ".embed.images[0].size"));
/// # Ok::<(), tizulgech::JsonError>(())
/// ```
pub fn json_record(text: impl AsRef<[u8]>) -> Result<Vec<u8>, JsonError> {
    let text = text.as_ref();
    let mut out = vec![0; text.len() + 64];
    loop {
        let mut size = 0;
        let number = sys::json_record(text, &mut out, &mut size);
        let told = (60..=68).contains(&number);
        if number == 251 || (told && size > out.len()) {
            out = vec![0; size];
            continue;
        }
        out.truncate(if number == 0 || told { size } else { 0 });
        return match number {
            0 => Ok(out),
            number => Err(JsonError { fault: JsonFault::of(number), path: text_of(out) }),
        };
    }
}

/// The text in which a link has a CID of version 1, whatever its codec and hash are, as that of a blob.
///
/// ```
/// use tizulgech::{LinkFault, link_from_text, link_text};
/// let blob = "bafkreihdwdcefgh4dqkjv67uzcmw7ojee6xedzdetojuzjevtenxquvyku";
/// assert_eq!(link_text(&link_from_text(blob)?)?, blob);
/// assert_eq!(link_text(b""), Err(LinkFault::Bad));
/// # Ok::<(), LinkFault>(())
/// ```
pub fn link_text(cid: &[u8]) -> Result<String, LinkFault> {
    filled(64 + 2 * cid.len(), |out, size| sys::link_text(cid, out, size)).map(text_of).map_err(LinkFault::of)
}

/// The CID of version 1 with this text, which has no other one.
pub fn link_from_text(text: &str) -> Result<Vec<u8>, LinkFault> {
    filled(text.len(), |out, size| sys::link_from_text(text.as_bytes(), out, size)).map_err(LinkFault::of)
}

/// Whose repository a file is the export of, as [`check_car`] has checked it.
#[derive(Clone, Debug, PartialEq, Eq)]
pub struct Export {
    /// The CID of its signed commit. The signature isn't tested.
    pub commit: Cid,
    /// The root of its tree.
    pub root: Cid,
    /// How many records it has.
    pub count: usize,
    /// Whose it is.
    pub did: String,
    /// Its revision.
    pub rev: String,
}

/// Of which repository a CAR file is the export, as `com.atproto.sync.getRepo` serves it; or its first fault. Nothing of it is
/// trusted: each block is hashed, and the tree is built anew of the records. No signature is tested.
///
/// ```
/// use tizulgech::{CheckFault, check_car};
/// assert_eq!(check_car(b"no file").unwrap_err().fault, CheckFault::CarHeader);
/// ```
pub fn check_car(file: &[u8]) -> Result<Export, CheckError> {
    let mut place = 0;
    let answer = filled(4096, |out, size| sys::check_car(file, &mut place, out, size));
    let bytes = answer.map_err(|number| CheckError { place, fault: CheckFault::of(number) })?;
    let mut reader = Reader(&bytes);
    let (commit, root, count) = (reader.cid(), reader.cid(), reader.number());
    let (did, rev) = (text_of(reader.part().to_vec()), text_of(reader.part().to_vec()));
    Ok(Export { commit, root, count, did, rev })
}
