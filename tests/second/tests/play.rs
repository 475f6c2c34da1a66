//! Scripts: read into calls, played, and given to the program. They are
//! written here with a bar for each tab.

use std::fs;
use std::io::Write;
use std::path::PathBuf;
use std::process::{Command, Output, Stdio};

use obcf_second::address::Address;
use obcf_second::book::Book;
use obcf_second::codeplug::{write_empty, Bank, Codeplug};
use obcf_second::play::{Player, HISTORY_SIZE, ROOM_SIZE};
use obcf_second::record::{Channel, ChannelInfo, Contact, ContactInfo, Location};
use obcf_second::script;
use obcf_second::tone::Tone;
use obcf_second::{Edition, Refusal};

const CALLSIGN: &str = "mode=m17|name=Friend|callsign=AB1CD";
const BROADCAST: &str = "mode=m17|name=|broadcast=1";
const FM: &str = "mode=fm|name=FM|rxtone=0:49|txtone=1:14";
/// The fields of a channel that do not depend on its mode, but for the name.
const COMMON: &str = "desc=|rx=145500000|tx=145600000|bandwidth=2|rxonly=1|power=10|scan=250\
                      |group=128|lat=-34|latfrac=9999|lon=-128|lonfrac=1|alt=525";

fn tabs(script: &str) -> String {
    script.replace('|', "\t")
}

fn empty() -> Vec<u8> {
    let mut file = vec![0; 88];
    write_empty(&mut file).unwrap();
    file
}

/// What is printed for a script without hash signs, and the file it leaves, by
/// both editions alike.
fn play(opening: &[u8], script: &str) -> (String, Vec<u8>) {
    let [older, newer] = Edition::BOTH.map(|edition| play_by(opening, script, edition));
    assert_eq!(older, newer);
    older
}

fn play_by(opening: &[u8], script: &str, edition: Edition) -> (String, Vec<u8>) {
    let mut player = Player::open(opening, edition).unwrap();
    let script = script::read(tabs(script).as_bytes(), edition).unwrap();
    let mut out = Vec::new();
    player.play(&script, &mut out).unwrap();
    (String::from_utf8(out).unwrap(), player.file().to_vec())
}

/// What is printed for one call on the empty codeplug, which must not change.
fn refusal(line: &str) -> String {
    let (out, file) = play(&empty(), line);
    assert_eq!(file, empty(), "{line}");
    out.trim_end().to_string()
}

/// Every call, with undos, and two removals of what is in use.
fn every_call() -> String {
    let lines = [
        "insert-contact|0|mode=dmr|name=Group 9|id=4294967295|type=2|rxtone=1",
        &format!("insert-contact|0|{CALLSIGN}"),
        &format!("insert-contact|1|{BROADCAST}"),
        &format!("insert-channel|0|{FM}|{COMMON}"),
        &format!("insert-channel|1|mode=dmr|name=Two  words=2|{COMMON}|rxcolour=1|txcolour=15|slot=2|contact=2"),
        &format!("insert-channel|0|{COMMON}|contact=0|position=1|encryption=2|operation=3|txcan=4|rxcan=0|name=M|mode=m17"),
        "insert-bank|0|name=Last",
        "insert-bank|0|name=First bank",
        "insert-entry|0|0|2",
        "insert-entry|0|0|0",
        "insert-entry|0|1|1",
        "remove-contact|2",
        "remove-contact|1",
        "remove-entry|0|1",
        "remove-channel|0",
        "remove-channel|1",
        "rename-bank|1|name=",
        "remove-bank|1",
        "undo",
        "undo",
        "set-header|timestamp=18446744073709551615|author=N0CALL|description=A small codeplug",
        &format!("replace-channel|1|{FM}|{COMMON}"),
        "remove-contact|1",
        "undo",
        "undo",
        &format!("replace-contact|0|{BROADCAST}"),
    ];
    lines.join("\n")
}

fn channel(name: &str, info: ChannelInfo) -> Channel {
    Channel {
        bandwidth: 2,
        receive_only: true,
        power: 10,
        rx_frequency: 145_500_000,
        tx_frequency: 145_600_000,
        scan_list: 250,
        group_list: 128,
        name: name.into(),
        description: Vec::new(),
        location: Location {
            latitude_floor: -34,
            latitude_ten_thousandths: 9_999,
            longitude_floor: -128,
            longitude_ten_thousandths: 1,
            altitude_plus_500: 525,
        },
        info,
    }
}

fn fm_channel() -> Channel {
    let tone = |enabled, index| Tone { enabled, index };
    let info = ChannelInfo::Fm {
        rx_tone: tone(false, 49),
        tx_tone: tone(true, 14),
    };
    channel("FM", info)
}

/// The channels that `every_call` leaves.
fn channels_left() -> [Channel; 2] {
    let m17 = ChannelInfo::M17 {
        rx_access: 0,
        tx_access: 4,
        operation: 3,
        encryption: 2,
        send_position: true,
        contact: Some(0),
    };
    let dmr = ChannelInfo::Dmr {
        rx_colour: 1,
        tx_colour: 15,
        timeslot: 2,
        contact: Some(1),
    };
    [channel("M", m17), channel("Two  words=2", dmr)]
}

/// The contacts that `every_call` leaves.
fn contacts_left() -> [Contact; 2] {
    let group = ContactInfo::Dmr {
        id: 4_294_967_295,
        contact_type: 2,
        rx_tone: true,
    };
    let contact = |name: &str, info| Contact {
        name: name.into(),
        info,
    };
    [
        contact("", ContactInfo::M17(Address::Broadcast)),
        contact("Group 9", group),
    ]
}

/// Checks the file that `every_call` makes of the empty codeplug.
fn check_file_left(file: &[u8]) {
    let codeplug = Codeplug::read(file, Edition::Older).unwrap();
    assert_eq!(codeplug.header.author, b"N0CALL");
    assert_eq!(codeplug.header.description, b"A small codeplug");
    assert_eq!(codeplug.header.timestamp, u64::MAX);
    assert_eq!(codeplug.contacts, contacts_left());
    assert_eq!(codeplug.channels, channels_left());
    let bank = |name: &str, entries: &[u16]| Bank {
        name: name.into(),
        entries: entries.to_vec(),
    };
    let banks = [bank("First bank", &[0, 1]), bank("Last", &[])];
    assert_eq!(codeplug.banks, banks);
}

#[test]
fn every_call_is_played() {
    let (out, file) = play(&empty(), &every_call());
    check_file_left(&file);
    let out: Vec<&str> = out.lines().collect();
    assert_eq!(out.len(), 26);
    for (n, line) in out.iter().enumerate() {
        let in_use = n == 11 || n == 14;
        assert_eq!(*line == "refused 35 at 0", in_use, "{n} {line}");
        assert_eq!(line.starts_with("done "), !in_use, "{n} {line}");
    }
    // Twenty edits stand but for the four undone.
    let words: Vec<&str> = out[25].split(' ').collect();
    assert_eq!(
        (words[1], words[3]),
        (file.len().to_string().as_str(), "16")
    );
}

/// The entries are those of the paper's examples: 4A 01 01 00 and 56 26 00.
#[test]
fn answers_are_printed() {
    let script = "set-header|author=|description=|timestamp=1\nundo\nundo\ninsert-bank|0|name=\n";
    let (out, _) = play(&empty(), script);
    assert_eq!(
        out,
        "done 88 4 1\ndone 88 0 0\nrefused 38 at 0\ndone 126 3 1\n"
    );
}

#[test]
fn records_are_read_from_fields() {
    let script = format!("insert-contact|0|{CALLSIGN}\ninsert-channel|0|{COMMON}|{FM}");
    let (_, file) = play(&empty(), &script);
    let codeplug = Codeplug::read(&file, Edition::Older).unwrap();
    let friend = Contact {
        name: b"Friend".to_vec(),
        info: ContactInfo::M17(Address::Callsign(10_476_881)),
    };
    assert_eq!(codeplug.contacts, [friend]);
    assert_eq!(codeplug.channels, [fm_channel()]);
}

/// Undoing every call gives the opening file back; a script may open any file.
#[test]
fn undos_take_a_script_back() {
    let (_, first) = play(&empty(), &every_call());
    let (out, file) = play(
        &first,
        "insert-bank|2|name=Third\ninsert-entry|2|0|1\nundo\nundo",
    );
    assert_eq!(
        out.lines().last(),
        Some(format!("done {} 0 0", first.len()).as_str())
    );
    assert_eq!(file, first);
    let undos = "undo\n".repeat(17);
    let (out, file) = play(&empty(), &format!("{}\n{undos}", every_call()));
    assert_eq!(file, empty());
    assert!(out.ends_with("\ndone 88 0 0\nrefused 38 at 0\n"), "{out}");
}

#[test]
fn writers_refuse_records() {
    let contact = |fields: &str| refusal(&format!("insert-contact|7|{fields}"));
    let long = "x".repeat(33);
    assert_eq!(contact("mode=m17|name=|callsign="), "refused 20 at 0");
    assert_eq!(
        contact("mode=m17|name=\x7f|callsign=AB1cd "),
        "refused 21 at 3"
    );
    assert_eq!(contact("mode=m17|name=|callsign=A "), "refused 22 at 0");
    assert_eq!(contact("mode=m17|name=\u{e9}|callsign=A"), "refused 5 at 0");
    assert_eq!(
        contact(&format!("mode=m17|name={long}|broadcast=1")),
        "refused 5 at 0"
    );
    assert_eq!(
        contact("mode=dmr|name=|id=0|type=3|rxtone=0"),
        "refused 7 at 37"
    );
    assert_eq!(refusal("insert-bank|7|name=\r"), "refused 5 at 0");
    let header = format!("set-header|author=|description={long}|timestamp=0");
    assert_eq!(refusal(&header), "refused 5 at 0");

    let channel = |from: &str, to: &str| {
        let fields = format!("{FM}|{COMMON}").replace(from, to);
        refusal(&format!("insert-channel|7|{fields}"))
    };
    assert_eq!(channel("width=2", "width=3"), "refused 7 at 1");
    assert_eq!(channel("scan=250", "scan=251"), "refused 7 at 11");
    assert_eq!(channel("lat=-34", "lat=-91"), "refused 7 at 77");
    assert_eq!(channel("0:49", "0:50"), "refused 7 at 85");
    assert_eq!(channel("1:14", "1:255"), "refused 7 at 86");
    assert_eq!(channel("FM", "FM"), "refused 33 at 0");
}

/// The first two words for each contact inserted with one of these callsigns,
/// and the file left.
fn play_callsigns(callsigns: &[&str], edition: Edition) -> (Vec<String>, Vec<u8>) {
    let line = |text| format!("insert-contact|0|mode=m17|name=|callsign={text}\n");
    let script: String = callsigns.iter().map(line).collect();
    let (out, file) = play_by(&empty(), &script, edition);
    let words = |line: &str| line.split(' ').take(2).collect::<Vec<_>>().join(" ");
    (out.lines().map(words).collect(), file)
}

#[test]
fn hash_signs_follow_the_edition() {
    let bad = ["# ", "A#", "##", "#AAAAAAAAA"];
    let (out, file) = play_callsigns(&bad, Edition::Newer);
    let refused = ["refused 22", "refused 21", "refused 21", "refused 20"];
    assert!(out == refused && file == empty());

    let good = ["#", "#AB1CD", "#........", "# A"];
    let (out, file) = play_callsigns(&good, Edition::Older);
    assert!(out == ["refused 21"; 4] && file == empty());
    let (out, file) = play_callsigns(&good, Edition::Newer);
    assert_eq!(out, ["done 127", "done 166", "done 205", "done 244"]);
    let numbers = [40, 6_553_599_999_999, 10_476_881, 0];
    let info = |n: u64| ContactInfo::M17(Address::Callsign(262_144_000_000_000 + n));
    let contacts = Codeplug::read(&file, Edition::Newer).unwrap().contacts;
    let infos: Vec<ContactInfo> = contacts.into_iter().map(|contact| contact.info).collect();
    assert_eq!(infos, numbers.map(info));
    let refusal = Player::open(&file, Edition::Older).err();
    assert_eq!(refusal.unwrap().to_string(), "refused 8 at 121");
}

#[test]
fn edits_are_refused() {
    assert_eq!(refusal("remove-contact|0"), "refused 33 at 0");
    assert_eq!(
        refusal("remove-bank|18446744073709551615"),
        "refused 33 at 0"
    );
    assert_eq!(refusal("insert-entry|0|0|0"), "refused 33 at 0");
    let dmr = format!("insert-channel|0|mode=dmr|name=|{COMMON}|rxcolour=0|txcolour=0|slot=1");
    // 9 points into the result, at byte 87 of the channel.
    assert_eq!(refusal(&format!("{dmr}|contact=0")), "refused 9 at 175");
    let (out, none) = play(&empty(), &format!("{dmr}|contact=none"));
    // The entry is 84, 93, 3 and three old bytes.
    assert_eq!(out, "done 178 6 1\n");
    assert_eq!(play(&empty(), &format!("{dmr}|contact=65535")).1, none);
    let (out, _) = play(
        &empty(),
        "insert-bank|0|name=\ninsert-entry|0|0|65535\nundo",
    );
    assert_eq!(out, "done 126 3 1\nrefused 11 at 126\ndone 88 0 0\n");
}

#[test]
fn no_calls_change_nothing() {
    assert_eq!(play(&empty(), ""), (String::new(), empty()));
}

/// A script whose second line is this one must be malformed there.
fn check_malformed(line: &str) {
    let script = tabs(&format!("insert-bank|0|name=\n{line}\nundo\n"));
    let malformed = script::read(script.as_bytes(), Edition::Older).expect_err(line);
    assert_eq!(malformed.line, 2, "{line}");
}

#[test]
fn malformed_calls_and_places() {
    let lines = [
        "",
        "undo|",
        "undo|0",
        "Undo",
        "undo\r",
        "remove-contact",
        "remove-contact|+0",
        "remove-contact|-1",
        "remove-contact|18446744073709551616",
        "remove-contact|0|0",
        "insert-entry|0|0",
        "insert-entry|0|0|65536",
        "insert-bank|name=|0",
        "set-header|0|author=|description=|timestamp=0",
        "set-header|author=|description=",
    ];
    lines.into_iter().for_each(check_malformed);
}

#[test]
fn malformed_contacts() {
    let dmr = "insert-contact|0|mode=dmr|name=|id=1|type=0|rxtone=0";
    let changes = [
        ("mode=dmr", "mode=fm"),
        ("mode=dmr", "mode=m17"),
        ("|name=", ""),
        ("|type=", "||type="),
        ("id=1", "id=4294967296"),
        ("id=1", "id="),
        ("rxtone=0", "rxtone=2"),
        ("rxtone=0", "rxtone=0|rxtone=0"),
        ("rxtone=0", "rxtone=0|colour=0"),
        ("rxtone=0", "rxtone=0|"),
    ];
    for (from, to) in changes {
        check_malformed(&dmr.replace(from, to));
    }
    for address in [
        "",
        "|broadcast=0",
        "|callsign=A|broadcast=1",
        "|callsign=|id=1",
    ] {
        check_malformed(&format!("insert-contact|0|mode=m17|name={address}"));
    }
}

#[test]
fn malformed_channels() {
    let fm = format!("insert-channel|0|{FM}|{COMMON}");
    let changes = [
        ("mode=fm", "mode=am"),
        ("mode=fm", "mode=dmr"),
        ("mode=fm", "mode=fm|contact=none"),
        ("power=10", "power=256"),
        ("power=10", "power=0x10"),
        ("lat=-34", "lat=128"),
        ("rxonly=1", "rxonly=true"),
        ("0:49", "49"),
        ("0:49", "2:49"),
        ("0:49", "0:256"),
        ("0:49", "0:49:2541"),
    ];
    for (from, to) in changes {
        check_malformed(&fm.replace(from, to));
    }
    let dmr = format!("insert-channel|0|mode=dmr|name=|{COMMON}|rxcolour=0|txcolour=0|slot=1");
    for contact in ["", "|contact=", "|contact=None", "|contact=65536"] {
        check_malformed(&format!("{dmr}{contact}"));
    }
}

/// Play stops where the book differs, naming the line.
#[test]
fn a_differing_book_stops_the_script() {
    let stop = |book| {
        let mut player = Player::open(&empty(), Edition::Older).unwrap();
        player.book = book;
        let script = b"insert-bank\t0\tname=\nundo\nundo\n";
        let script = script::read(script, Edition::Older).unwrap();
        let mut out = Vec::new();
        let error = player.play(&script, &mut out).unwrap_err();
        (String::from_utf8(out).unwrap(), error.to_string())
    };
    let small = Book::open(empty(), ROOM_SIZE, 2, Edition::Older);
    let (out, error) = stop(small);
    assert_eq!(
        (out.as_str(), error.as_str()),
        ("", "line 1: the book answers otherwise")
    );
    let mut other = empty();
    other[74] = 1;
    let other = Book::open(other, ROOM_SIZE, HISTORY_SIZE, Edition::Older);
    let (out, error) = stop(other);
    assert_eq!(
        (out.as_str(), error.as_str()),
        ("", "line 1: the book holds another file")
    );
}

#[test]
fn only_valid_files_are_opened() {
    let refused = |file: &[u8]| Player::open(file, Edition::Older).err();
    let refusal = |number, place| Some(Refusal { number, place });
    assert_eq!(refused(&empty()), None);
    assert_eq!(refused(&empty()[..87]), refusal(2, 86));
    assert_eq!(refused(&vec![0; ROOM_SIZE + 1]), refusal(1, 0));
}

// The program.

/// A file of this name for the program to read or write.
fn path(name: &str) -> PathBuf {
    PathBuf::from(env!("CARGO_TARGET_TMPDIR")).join(name)
}

/// Runs the program; `open` and `out` are the arguments after `play`.
fn run(open: &str, out: &PathBuf, script: &str) -> Output {
    run_by(open, out, script, &[])
}

/// The same with arguments after these.
fn run_by(open: &str, out: &PathBuf, script: &str, last: &[&str]) -> Output {
    let mut program = Command::new(env!("CARGO_BIN_EXE_second"))
        .args(["play", open])
        .arg(out)
        .args(last)
        .stdin(Stdio::piped())
        .stdout(Stdio::piped())
        .stderr(Stdio::piped())
        .spawn()
        .unwrap();
    let mut input = program.stdin.take().unwrap();
    input.write_all(tabs(script).as_bytes()).unwrap();
    drop(input);
    program.wait_with_output().unwrap()
}

#[test]
fn the_program_plays_scripts() {
    let out = path("played");
    let ran = run("empty", &out, &every_call());
    assert_eq!(ran.status.code(), Some(0));
    let (lines, file) = play(&empty(), &every_call());
    assert_eq!(String::from_utf8(ran.stdout).unwrap(), lines);
    assert_eq!(fs::read(&out).unwrap(), file);
    // The file may be opened and written over.
    let ran = run(out.to_str().unwrap(), &out, "remove-bank|1\n");
    assert_eq!(ran.status.code(), Some(0));
    assert_eq!(fs::read(&out).unwrap(), play(&file, "remove-bank|1").1);
}

#[test]
fn the_program_plays_by_an_edition() {
    let out = path("hash");
    let script = "insert-contact|0|mode=m17|name=|callsign=#A\n";
    for last in [&[][..], &["older"]] {
        let ran = run_by("empty", &out, script, last);
        assert_eq!(ran.stdout, b"refused 21 at 0\n");
    }
    let ran = run_by("empty", &out, script, &["newer"]);
    assert_eq!(ran.status.code(), Some(0));
    let (lines, file) = play_by(&empty(), script, Edition::Newer);
    assert_eq!(ran.stdout, lines.as_bytes());
    assert_eq!(fs::read(&out).unwrap(), file);

    // The same file is opened by the newer edition only.
    let hash = out.to_str().unwrap();
    let ran = run_by(hash, &path("again"), "undo\n", &["newer"]);
    assert_eq!(ran.stdout, b"refused 38 at 0\n");
    let ran = run_by(hash, &path("again"), "undo\n", &["older"]);
    assert_eq!((ran.status.code(), ran.stdout.len()), (Some(1), 0));
    let error = String::from_utf8(ran.stderr).unwrap();
    assert!(error.ends_with("hash: refused 8 at 121\n"), "{error}");
    for last in [&["Newer"][..], &["newer", "newer"], &[""]] {
        let ran = run_by("empty", &out, "", last);
        assert_eq!(ran.status.code(), Some(2), "{last:?}");
    }
}

#[test]
fn the_program_writes_nothing_after_an_error() {
    let out = path("not-written");
    let _ = fs::remove_file(&out);
    let ran = run("empty", &out, "insert-bank|0|name=\nundo|1\n");
    assert_eq!((ran.status.code(), ran.stdout.len()), (Some(2), 0));
    let error = String::from_utf8(ran.stderr).unwrap();
    assert_eq!(error, "second: line 2: a field too many: \"1\"\n");
    assert!(!out.exists());

    let invalid = path("invalid");
    fs::write(&invalid, &empty()[..87]).unwrap();
    let ran = run(invalid.to_str().unwrap(), &out, "undo\n");
    assert_eq!((ran.status.code(), ran.stdout.len()), (Some(1), 0));
    let error = String::from_utf8(ran.stderr).unwrap();
    assert!(error.ends_with("invalid: refused 2 at 86\n"), "{error}");
    let ran = run(path("missing").to_str().unwrap(), &out, "");
    assert_eq!(ran.status.code(), Some(1));
    assert!(!out.exists());
}
