//! The table of calls and answers that the tests of all bindings read: `bindings/cases.json`.
mod common;
#[path = "common/json.rs"]
mod json;

use json::Json;
use std::collections::BTreeMap;
use tizulgech::*;

/// Why a call was refused, as the table says it.
#[derive(Debug, PartialEq)]
struct Refused {
    name: &'static str,
    number: u8,
    place: Option<usize>,
    cid: Option<Cid>,
    path: Option<String>,
}

macro_rules! refused {
    ($($fault:ty),*) => {
        $(impl From<$fault> for Refused {
            fn from(it: $fault) -> Refused {
                Refused { name: it.name(), number: it.number(), place: None, cid: None, path: None }
            }
        })*
    };
}
refused!(
    RecordFault,
    CidFault,
    StampFault,
    TidFault,
    TreeFault,
    ProofFault,
    NodeFault,
    BatchFault,
    OpenError,
    CommitFault,
    MessageFault,
    SigningFault
);
refused!(JsonFault, RecordJsonFault, LinkFault, CheckFault);

impl From<BatchError> for Refused {
    fn from(it: BatchError) -> Refused {
        Refused { place: Some(it.place), ..it.fault.into() }
    }
}

impl From<MessageError> for Refused {
    fn from(it: MessageError) -> Refused {
        Refused { place: Some(it.place), cid: it.node, ..it.fault.into() }
    }
}

impl From<SigningError> for Refused {
    fn from(it: SigningError) -> Refused {
        Refused { place: Some(it.place), ..it.fault.into() }
    }
}

impl From<JsonError> for Refused {
    fn from(it: JsonError) -> Refused {
        Refused { path: Some(it.path), ..it.fault.into() }
    }
}

impl From<CheckError> for Refused {
    fn from(it: CheckError) -> Refused {
        Refused { place: Some(it.place), ..it.fault.into() }
    }
}

impl From<ChangeFault> for Refused {
    fn from(it: ChangeFault) -> Refused {
        let place = if let ChangeFault::OtherValue(place) = it { Some(place) } else { None };
        let cid = if let ChangeFault::Missing(cid) | ChangeFault::BadNode(cid) = it { Some(cid) } else { None };
        Refused { name: it.name(), number: it.number(), place, cid, path: None }
    }
}

impl From<ProvingFault> for Refused {
    fn from(it: ProvingFault) -> Refused {
        let place = if let ProvingFault::OtherValue(place) = it { Some(place) } else { None };
        Refused { name: it.name(), number: it.number(), place, cid: None, path: None }
    }
}

impl From<tree::EditError<()>> for Refused {
    fn from(it: tree::EditError<()>) -> Refused {
        let cid = if let tree::EditError::Missing(cid) | tree::EditError::BadNode(cid) = it { Some(cid) } else { None };
        Refused { name: it.name().unwrap(), number: it.number().unwrap(), place: None, cid, path: None }
    }
}

impl From<NoMemory> for Refused {
    fn from(_: NoMemory) -> Refused {
        Refused { name: "NO_MEMORY", number: 255, place: None, cid: None, path: None }
    }
}

/// Text of the table, in which x*n stands for n times x.
fn whole(text: &str) -> String {
    match text.rsplit_once('*').map(|(part, count)| (part, count.parse::<usize>())) {
        Some((part, Ok(count))) => part.repeat(count),
        _ => text.into(),
    }
}

fn data(it: &Json) -> Vec<u8> {
    common::data(it.text())
}

fn all_data(it: &Json) -> Vec<Vec<u8>> {
    it.list().iter().map(data).collect()
}

fn cid(it: &Json) -> Cid {
    it.text().parse().unwrap()
}

fn value(it: &Json) -> Option<Cid> {
    (*it != Json::Null).then(|| cid(it))
}

/// The key and the value of a pair.
fn pair(it: &Json) -> (&str, Cid) {
    (it[0].text(), cid(&it[1]))
}

fn stamp(it: &Json) -> Stamp<'_> {
    Stamp { did: it["did"].text(), rev: it["rev"].text() }
}

fn told(it: &Json) -> Vec<KeyChange<'_>> {
    it.list().iter().map(|it| KeyChange { key: it[0].text().as_bytes(), before: value(&it[1]), after: value(&it[2]) }).collect()
}

fn wanted(it: &Json) -> Vec<tree::Change<'_>> {
    it.map().iter().map(|(key, it)| tree::Change { key: key.as_bytes(), value: value(it) }).collect()
}

fn write<'a>(it: &'a Json, record: &'a [u8]) -> Write<'a> {
    let key = it[1].text();
    match it[0].text() {
        "put" => Write::Put(key, record),
        "create" => Write::Create(key, record),
        "update" => Write::Update(key, record),
        _ => Write::Delete(key),
    }
}

/// The record of a write; a delete has none.
fn record(it: &Json) -> Vec<u8> {
    it.list().get(2).map_or(vec![], data)
}

/// What a host has under the CIDs of the table.
fn host(it: &Json) -> impl FnMut(&Cid) -> Result<Option<Vec<u8>>, ()> {
    let nodes: BTreeMap<String, Vec<u8>> = it.map().iter().map(|(cid, node)| (cid.clone(), data(node))).collect();
    move |cid| Ok(nodes.get(&cid.to_string()).cloned())
}

// What is answered, as the table has it.

fn text(it: impl ToString) -> Json {
    Json::Text(it.to_string())
}

fn maybe(it: Option<Cid>) -> Json {
    it.map_or(Json::Null, text)
}

fn hex(bytes: impl AsRef<[u8]>) -> Json {
    Json::Text(bytes.as_ref().iter().map(|byte| format!("{byte:02x}")).collect())
}

/// The same with long runs of zeros as one word.
fn packed(bytes: &[u8]) -> Json {
    let (mut words, mut left) = (Vec::new(), bytes);
    while !left.is_empty() {
        let begin = left.windows(1000).position(|it| it.iter().all(|byte| *byte == 0)).unwrap_or(left.len());
        let (front, rest) = left.split_at(begin);
        let zeros = rest.iter().take_while(|byte| **byte == 0).count();
        if let (Json::Text(word), false) = (hex(front), front.is_empty()) {
            words.push(word);
        }
        if zeros > 0 {
            words.push(format!("00*{zeros}"));
        }
        left = &rest[zeros..];
    }
    Json::Text(words.join(" "))
}

fn commit(it: &SignedCommit) -> Json {
    let (did, rev, sig, unsigned) = (text(&it.did), text(&it.rev), hex(&it.sig), hex(&it.unsigned));
    map([("did", did), ("rev", rev), ("root", text(it.root)), ("prev", maybe(it.prev)), ("sig", sig), ("unsigned", unsigned)])
}

fn operations(of: &[Operation]) -> Json {
    list(of.iter().map(|it| list([text(&it.key), maybe(it.before), maybe(it.after)])))
}

fn checked(it: &CheckedCommit) -> Json {
    map([
        ("commit", commit(&it.commit)),
        ("seq", number(it.seq)),
        ("cid", text(it.cid)),
        ("since", it.since.as_ref().map_or(Json::Null, text)),
        ("time", text(&it.time)),
        ("operations", operations(&it.operations)),
        ("blocks", list(it.blocks.iter().map(|(cid, block)| list([text(cid), packed(block)])))),
    ])
}

/// The file of an account without records.
fn empty_account(it: &Json) -> Result<Vec<u8>, Refused> {
    let root = tree::EMPTY_ROOT.parse()?;
    let signed = SignedCommit::bytes_of(stamp(it), &root, &data(&it["sig"]))?;
    let top = Cid::of(&signed);
    Ok([file_head(&top)?, file_section(&top, &signed)?, file_section(&root, tree::EMPTY_NODE)?].concat())
}

/// What a message tells beside a batch.
fn beside<'a>(it: &'a Json, previous: &'a Cid, sig: &'a [u8]) -> Told<'a> {
    let since = (it["since"] != Json::Null).then(|| it["since"].text());
    Told { previous, sig, seq: it["seq"].number(), time: it["time"].text(), since }
}

fn list(of: impl IntoIterator<Item = Json>) -> Json {
    Json::List(of.into_iter().collect())
}

fn map<const N: usize>(of: [(&str, Json); N]) -> Json {
    Json::Map(of.into_iter().map(|(name, it)| (name.into(), it)).collect())
}

fn number(it: impl TryInto<u64>) -> Json {
    Json::Number(it.try_into().ok().unwrap())
}

fn pairs(of: impl IntoIterator<Item = (Vec<u8>, Cid)>) -> Json {
    list(of.into_iter().map(|(key, cid)| list([text(String::from_utf8(key).unwrap()), text(cid)])))
}

fn sorted(mut of: Vec<Json>) -> Json {
    of.sort_by_key(|it| format!("{it:?}"));
    Json::List(of)
}

fn link(it: tree::Link) -> Json {
    match it {
        tree::Link::Node(cid) => list([Json::Bool(true), text(cid)]),
        tree::Link::Record(cid) => list([Json::Bool(false), text(cid)]),
    }
}

fn edit(it: &Json) -> Result<Json, Refused> {
    let changes = wanted(&it["changes"]);
    let edit = tree::apply(host(&it["nodes"]), &cid(&it["root"]), &changes)?;
    let previous =
        changes.iter().zip(&edit.previous).map(|(it, had)| list([text(std::str::from_utf8(it.key).unwrap()), maybe(*had)]));
    Ok(map([
        ("root", text(edit.root)),
        ("add", sorted(edit.add.iter().map(|(cid, node)| list([text(cid), hex(node)])).collect())),
        ("drop", sorted(edit.drop.iter().map(text).collect())),
        ("previous", list(previous)),
    ]))
}

fn entries(it: &Json) -> Result<Json, Refused> {
    let found = tree::entries(data(&it["node"]))?;
    let key = |key: &[u8]| text(std::str::from_utf8(key).unwrap());
    let pairs = found.pairs.iter().map(|it| list([key(&it.key), text(it.value), maybe(it.link)]));
    Ok(map([("left", maybe(found.left)), ("pairs", list(pairs))]))
}

fn proven(it: &Json) -> Result<Json, Refused> {
    let (changes, root) = (wanted(&it["changes"]), cid(&it["root"]));
    let key = |key| text(std::str::from_utf8(key).unwrap());
    let proven = tree::prove_change(host(&it["nodes"]), &root, &changes)?;
    let told = proven.changes.iter().map(|it| list([key(it.key), maybe(it.before), maybe(it.after)]));
    let shown = proven.proof.verify(&root, &proven.after, &proven.changes).is_ok();
    Ok(map([("after", text(proven.after)), ("changes", list(told)), ("shown", Json::Bool(shown))]))
}

fn opened(it: &Json) -> Result<Json, Refused> {
    let repository = Repository::open_car(it["limit"].number() as usize, &data(&it["file"]))?;
    let all = pairs(repository.pairs(""));
    Ok(map([("root", text(repository.root())), ("number", number(repository.number())), ("pairs", all)]))
}

fn call(it: &Json) -> Result<Json, Refused> {
    let done = |_| Json::Null;
    Ok(match it["call"].text() {
        "record_fault" => done(check_record(&data(&it["bytes"]))?),
        "write_fault" => done(check_write(it["there"] == Json::Bool(true), write(&it["write"], &record(&it["write"])))?),
        "layer" => number(layer(it["key"].text())),
        "is_key" => Json::Bool(is_key(whole(it["key"].text()))),
        "is_repository_key" => Json::Bool(is_repository_key(it["key"].text())),
        "is_did" => Json::Bool(is_did(it["did"].text())),
        "is_tid" => Json::Bool(is_tid(it["rev"].text())),
        "cid" => text(Cid::of(&data(&it["block"]))),
        "cids" => list(Cid::of_each(&all_data(&it["blocks"]))?.into_iter().map(text)),
        "cid_text" => {
            let found = data(&it["bytes"]).try_into().ok().and_then(Cid::from_bytes);
            text(found.ok_or(CidFault::NotThisProfile)?)
        }
        "cid_from_text" => hex(it["text"].text().parse::<Cid>()?.as_bytes()),
        "stamp_fault" => {
            let before = it["before"].text();
            done(check_stamp((!before.is_empty()).then_some(before), stamp(it))?)
        }
        "commit_bytes" => hex(commit_bytes(stamp(it), &cid(&it["root"]))?),
        "signed_commit" => hex(SignedCommit::bytes_of(stamp(it), &cid(&it["root"]), &data(&it["sig"]))?),
        "next_tid" => {
            let last = it["last"].text();
            text(next_tid((!last.is_empty()).then_some(last), it["micros"].number(), it["clock"].number())?)
        }
        "read_commit" => commit(&SignedCommit::read(&data(&it["bytes"]))?),
        "file_head" => hex(file_head(&cid(&it["root"]))?),
        "file_section" => hex(file_section(&cid(&it["of"]), &data(&it["block"]))?),
        "empty_account" => hex(empty_account(it)?),
        "check_commit" => checked(&check_commit(&cid(&it["previous"]), &data(&it["message"]))?),
        "tree_root" => {
            let (root, nodes) = tree_root(&it["pairs"].list().iter().map(pair).collect::<Vec<_>>())?;
            list([text(root), number(nodes)])
        }
        "listing_car" => {
            let records: Vec<(&str, Vec<u8>)> = it["records"].list().iter().map(|it| (it[0].text(), data(&it[1]))).collect();
            hex(listing_car(stamp(it), &records)?)
        }
        "links" => list(tree::links(data(&it["node"]))?.into_iter().map(link)),
        "verify" => maybe(Proof { nodes: all_data(&it["proof"]) }.verify(&cid(&it["root"]), it["key"].text())?),
        "verify_change" => {
            let (before, after, nodes) = (cid(&it["before"]), cid(&it["after"]), all_data(&it["nodes"]));
            done(ChangeProof { nodes }.verify(&before, &after, &told(&it["changes"]))?)
        }
        "verify_inversion" => {
            let (before, after, nodes) = (cid(&it["before"]), cid(&it["after"]), all_data(&it["nodes"]));
            done(InversionProof { nodes }.verify(&before, &after, &told(&it["changes"]))?)
        }
        "tree_get" => maybe(tree::get(host(&it["nodes"]), &cid(&it["root"]), it["key"].text())?),
        "tree_path" => {
            let (path, value) = tree::path(host(&it["nodes"]), &cid(&it["root"]), it["key"].text())?;
            map([("path", list(path.nodes.iter().map(hex))), ("value", maybe(value))])
        }
        "tree_apply" => edit(it)?,
        "node_entries" => entries(it)?,
        "tree_list" => {
            let most = it["most"].number() as usize;
            pairs(tree::list(host(&it["nodes"]), &cid(&it["root"]), it["start"].text(), most)?)
        }
        "tree_prove_change" => proven(it)?,
        "tree_difference" => {
            let found = tree::difference(host(&it["nodes"]), &cid(&it["before"]), &cid(&it["after"]))?;
            let key = |key: &[u8]| text(std::str::from_utf8(key).unwrap());
            let changes = found.changes.iter().map(|it| list([key(&it.key), maybe(it.before), maybe(it.after)]));
            map([
                ("changes", list(changes)),
                ("add", sorted(found.add.iter().map(|(cid, node)| list([text(cid), hex(node)])).collect())),
                ("drop", sorted(found.drop.iter().map(text).collect())),
            ])
        }
        "record_json" => text(record_json(&data(&it["record"]))?),
        "json_record" => hex(json_record(it["text"].text())?),
        "link_text" => text(link_text(&data(&it["bytes"]))?),
        "link_from_text" => hex(link_from_text(it["text"].text())?),
        "check_car" => {
            let found = check_car(&data(&it["file"]))?;
            let (commit, root, count) = (text(found.commit), text(found.root), number(found.count));
            map([("commit", commit), ("root", root), ("count", count), ("did", text(found.did)), ("rev", text(found.rev))])
        }
        "open_car" => opened(it)?,
        other => panic!("no call {other}"),
    })
}

/// That a call answers what the case says, or is refused as it says.
fn see(table: &Json, it: &Json, found: Result<Json, Refused>) {
    match found {
        Ok(answer) => assert_eq!(Some(&answer), it.get("answer"), "{it:?}"),
        Err(refused) => {
            assert_eq!(it.get("fault"), Some(&text(refused.name)), "{it:?}");
            assert_eq!(table["faults"][refused.name], number(refused.number));
            if let Some(place) = it.get("place") {
                assert_eq!(refused.place.map(number).as_ref(), Some(place), "{it:?}");
            }
            if let Some(path) = it.get("path") {
                assert_eq!(refused.path.map(text).as_ref(), Some(path), "{it:?}");
            }
            if it.get("cid").is_some() {
                assert_eq!(refused.cid, it.get("cid").map(cid), "{it:?}");
            }
        }
    }
}

fn table() -> Json {
    Json::read(include_str!("../../cases.json"))
}

#[test]
fn calls() {
    let table = table();
    for it in table["calls"].list() {
        see(&table, it, call(it));
    }
}

fn batch(repository: &mut Repository, it: &Json) -> Result<Json, Refused> {
    let records: Vec<Vec<u8>> = it["writes"].list().iter().map(record).collect();
    let writes: Vec<Write> = it["writes"].list().iter().zip(&records).map(|(it, record)| write(it, record)).collect();
    Ok(match it["call"].text() {
        "apply" => {
            let applied = repository.apply(stamp(it), &writes)?;
            map([("root", text(applied.root)), ("previous", text(applied.previous)), ("commit", text(applied.commit))])
        }
        "preview" => {
            let found = repository.preview(stamp(it), &writes)?;
            let (root, changes) = (text(found.root), operations(&found.changes));
            map([("previous", text(found.previous)), ("root", root), ("unsigned", hex(&found.unsigned)), ("changes", changes)])
        }
        _ => {
            let (previous, sig) = (cid(&it["previous"]), data(&it["sig"]));
            packed(&repository.apply_signed(stamp(it), &writes, beside(it, &previous, &sig))?)
        }
    })
}

fn step(repository: &mut Repository, it: &Json) -> Result<Json, Refused> {
    Ok(match it["call"].text() {
        "apply" | "preview" | "apply_signed" => return batch(repository, it),
        "rev" => repository.rev().map_or(Json::Null, text),
        "root" => text(repository.root()),
        "commit" => maybe(repository.commit()),
        "number" => number(repository.number()),
        "get" => repository.get(it["key"].text())?.map_or(Json::Null, hex),
        "list" => pairs(repository.list(it["start"].text(), it["most"].number() as usize)?),
        "pairs" => pairs(repository.pairs(it["start"].text())),
        "car" => {
            let (car, mut written) = (repository.car()?, Vec::new());
            repository.write_car(&mut written).unwrap();
            let parts: Vec<Vec<u8>> = repository.car_parts().map(Result::unwrap).collect();
            assert_eq!((&written, parts.concat()), (&car, car.clone()));
            hex(car)
        }
        "car_length" => number(repository.car_length()?),
        "prove" => list(repository.prove(it["key"].text())?.nodes.iter().map(hex)),
        "prove_change" => {
            let (changes, key) = (wanted(&it["changes"]), |key| text(std::str::from_utf8(key).unwrap()));
            let proven = repository.prove_change(&changes)?;
            let told = proven.changes.iter().map(|it| list([key(it.key), maybe(it.before), maybe(it.after)]));
            map([("after", text(proven.after)), ("changes", list(told)), ("nodes", list(proven.proof.nodes.iter().map(hex)))])
        }
        "prove_inversion" => list(repository.prove_inversion(&told(&it["changes"]))?.nodes.iter().map(hex)),
        other => panic!("no step {other}"),
    })
}

#[test]
fn repositories() {
    let table = table();
    for it in table["repositories"].list() {
        let opened = Repository::open(it["limit"].number() as usize);
        let Some(steps) = it.get("steps") else {
            see(&table, it, opened.map(|_| Json::Null).map_err(Refused::from));
            continue;
        };
        let mut repository = opened.unwrap();
        // One that is closed can't be called from Rust.
        for it in steps.list().iter().take_while(|it| it["call"].text() != "close") {
            see(&table, it, step(&mut repository, it));
        }
    }
}
