use crate::daysheet::{self, daysheet, LIST_FULL, MOST_KEPT};
use crate::gateway::{self, Asked, Wrong};
use crate::line::{Act, Line, Ticked, BAD_INTERVAL, NO_ACT};
use crate::make::{self, Event, Given, Rng, Sent, Text};
use crate::plan::{join, plan, A_PAIR, BAD_PLAN, LONGEST_LIST, LONGEST_PLAN};
use crate::reader::{self, Value, A_FIELD};
use crate::reports::{self, LIST};
use crate::session::{
    self, Answer, Done, Ended, Phase, Row, RowSort, Send, Session, ASKED_ONCE, A_ROW, A_SEND, LAST,
    LAST_KIND, MOST_REPEATS, NOTHING, NOT_A_SEND, NO_ROW,
};
use crate::tables::{self, types, Sort};
use crate::wire::{self, is_set, refuse, set, Allowed, Refusal, LEAST, MAP_WIDTH, MOST};
use crate::writer::{self, HeadValues, ToWrite};
use crate::{crc, plain};

const US: &[u8] = b"RECORDER01";

fn head(message_type: u8, number: u32) -> HeadValues {
    HeadValues {
        message_type,
        number,
        poss_dup: 0,
        poss_resend: 0,
    }
}

fn map_of(positions: &[usize]) -> [u8; MAP_WIDTH] {
    let mut map = [0; MAP_WIDTH];
    for &position in positions {
        set(&mut map, position);
    }
    map
}

/// A message by the writer.
fn written(head: &HeadValues, positions: &[usize], body: &[u8]) -> Vec<u8> {
    let mut out = [0; MOST];
    let length = writer::write(head, US, &map_of(positions), body, &mut out).unwrap();
    out[..length].to_vec()
}

/// A message framed as it is, right or wrong.
fn framed(message_type: u8, number: u32, positions: &[usize], body: &[u8]) -> Vec<u8> {
    let given = Given {
        message_type,
        number,
        poss_dup: 0,
        poss_resend: 0,
        comp_id: US,
    };
    let mut comp_id = US.to_vec();
    comp_id.resize(12, 0);
    make::frame(&given, &comp_id, &map_of(positions), body)
}

/// The type 10 body with the required set alone.
fn required_body() -> (Vec<usize>, Vec<u8>) {
    let mut positions = Vec::new();
    let mut body = Vec::new();
    for position in 0..256 {
        if let Some(entry) = tables::find(10, position) {
            if entry.required {
                positions.push(position);
                body.resize(body.len() + entry.field.width, 0);
            }
        }
    }
    (positions, body)
}

// ---- The check figures of document 01 ----

#[test]
fn figure_required_set_of_type_10() {
    let (positions, body) = required_body();
    let mut map = [0; MAP_WIDTH];
    map[..5].copy_from_slice(&[0x73, 0x40, 0x07, 0xC0, 0x04]);
    assert_eq!(map_of(&positions), map);
    let bytes = written(&head(10, 1), &positions, &body);
    assert_eq!(reader::map(&bytes), map);
    assert_eq!(reader::read(&bytes).unwrap().message_type, 10);
}

#[test]
fn figure_decimals() {
    let mut out = [7; 9];
    assert_eq!(writer::put_decimal(1_000_003_100_012, &mut out), Ok(8));
    assert_eq!(out, [0x6C, 0x5D, 0xD4, 0xD4, 0xE8, 0, 0, 0, 7]);
    assert_eq!(writer::put_decimal(-1, &mut out), Ok(8));
    assert_eq!(out, [255, 255, 255, 255, 255, 255, 255, 255, 7]);

    let (mut positions, body) = required_body();
    positions.push(12);
    // Price stands before position 21: after 12 + 21 + 1 + 25 + 1 + 21 bytes.
    for (price, count) in [
        ([0x6C, 0x5D, 0xD4, 0xD4, 0xE8, 0, 0, 0], 1_000_003_100_012),
        ([255; 8], -1),
    ] {
        let mut body = body.clone();
        body.splice(81..81, price);
        let bytes = written(&head(10, 1), &positions, &body);
        assert_eq!(reader::ask_number(&bytes, 12), Ok(Value::Decimal(count)));
    }
}

/// The count that a text stands for. Refuses a text that has a shorter one.
fn decimal_of(text: &str) -> i128 {
    let (sign, size) = match text.strip_prefix('-') {
        Some(size) => (-1, size),
        None => (1, text),
    };
    let (before, after) = match size.split_once('.') {
        Some((before, after)) => {
            assert!(!after.is_empty() && !after.ends_with('0'), "{}", text);
            (before, after)
        }
        None => (size, ""),
    };
    assert!(before == "0" || !before.starts_with('0'), "{}", text);
    assert!(!before.is_empty() && after.len() <= 8, "{}", text);
    let mut count = 0;
    for digit in format!("{}{:0<8}", before, after).bytes() {
        assert!(digit.is_ascii_digit(), "{}", text);
        count = count * 10 + i128::from(digit - b'0');
    }
    assert!(sign == 1 || count != 0, "{}", text);
    sign * count
}

#[test]
fn decimals_as_text() {
    for (decimal, text) in [
        (0, "0"),
        (1, "0.00000001"),
        (-1, "-0.00000001"),
        (50_000_000, "0.5"),
        (-50_000_000, "-0.5"),
        (99_999_999, "0.99999999"),
        (100_000_000, "1"),
        (-100_000_000, "-1"),
        (100_000_001, "1.00000001"),
        (1_010_000_000, "10.1"),
        (1_000_003_100_012, "10000.03100012"),
        (i64::MAX, "92233720368.54775807"),
        (i64::MIN, "-92233720368.54775808"),
    ] {
        assert_eq!(wire::decimal_text(decimal), text);
    }
    let mut rng = Rng::new(21);
    for _ in 0..100_000 {
        // Texts of every length: high bits cleared, and zeros at the end.
        let ten = 10_i64.pow(rng.below(18) as u32);
        let decimal = (rng.draw() as i64 >> rng.below(64)) / ten * ten;
        let text = wire::decimal_text(decimal);
        assert_eq!(decimal_of(&text), i128::from(decimal));
        assert!(text.len() <= 21, "{}", text);
    }
}

#[test]
fn figure_lengths() {
    let resend = writer::resend_request(1, US, 1, 0).unwrap();
    assert_eq!(resend.len(), 66);
    assert_eq!(reader::map(&resend)[0], 0xC0);
    let heartbeat = writer::heartbeat(1, US).unwrap();
    assert_eq!(heartbeat.len(), 58);
    assert_eq!(reader::read(&heartbeat).unwrap().length, 58);
}

#[test]
fn figure_short_and_bad_starts() {
    assert_eq!(reader::read(&[]), Err(refuse(1, 3)));
    assert_eq!(reader::read(&[3]), Err(refuse(2, 0)));
    assert_eq!(reader::read(&[2, 57, 0]), Err(refuse(3, 0)));
    let mut bytes = [0; 57];
    bytes[0] = 2;
    bytes[1] = 58;
    assert_eq!(reader::read(&bytes), Err(refuse(1, 58)));
}

#[test]
fn figure_plans() {
    let list = [0, 1, 0, 0, 1];
    let mut out = [[9; 2]; 5];
    assert_eq!(plan(&list, 1, 0, &mut out), Ok(4));
    assert_eq!(out, [[1, 2], [2, 0], [3, 5], [5, 0], [9, 9]]);
    let mut out = [[9; 2]; 2];
    assert_eq!(plan(&list, 3, 3, &mut out), Ok(1));
    assert_eq!(out, [[3, 4], [9, 9]]);
    assert_eq!(plan(&list, 6, 0, &mut out), Err(refuse(40, 0)));
}

#[test]
fn figure_daysheet() {
    let input = b"kind=logon n=1 dup=0 new=0
kind=business n=2 dup=0 new=0
kind=business n=5 dup=0 new=0
kind=gapfill n=3 dup=1 new=5
kind=business n=5 dup=1 new=0
kind=business n=2 dup=1 new=0
";
    let output = "sheet=1
row=session first=1 last=1 next=2 out=none
row=business first=2 last=2 next=3 out=none
row=none first=0 last=0 next=3 out=resend
row=filled first=3 last=4 next=5 out=none
row=business first=5 last=5 next=6 out=none
row=none first=0 last=0 next=6 out=none
";
    assert_eq!(printed_by_both(input), output);
    let unended = &input[..input.len() - 1];
    assert_eq!(printed_by_both(unended), output);
}

// ---- Daysheet ----

/// What daysheet prints for lines that the plain recorder has room for: the plain
/// recorder prints the same.
fn printed_by_both(input: &[u8]) -> String {
    let quick = String::from_utf8(daysheet(input)).unwrap();
    let plain = String::from_utf8(daysheet::plain(input)).unwrap();
    assert_eq!(plain, quick, "{}", String::from_utf8_lossy(input));
    quick
}

#[test]
fn daysheet_bad_lines() {
    assert_eq!(printed_by_both(b""), "sheet=1\n");
    assert_eq!(printed_by_both(b"\n"), "sheet=1\nbad=1\n");
    for bad in [
        "kind=logon n=0 dup=0 new=0",
        "kind=logon n=1 dup=2 new=0",
        "kind=logon n=1 dup=0 new=1",
        "kind=business n=1 dup=0 new=3",
        "kind=business n=4294967296 dup=0 new=0",
        "kind=gapfill n=1 dup=0 new=99999999999999999999",
        "kind=logon  n=1 dup=0 new=0",
        "kind=logon n=1 dup=0 new=0 ",
        " kind=logon n=1 dup=0 new=0",
        "kind=logon n=1 dup=0",
        "kind=logon n=1 new=0 dup=0",
        "kind=logon n= dup=0 new=0",
        "kind=logon n=+1 dup=0 new=0",
        "kind=logout n=1 dup=0 new=0",
        "kind=logon n=1 dup=0 new=0\r",
    ] {
        assert_eq!(printed_by_both(bad.as_bytes()), "sheet=1\nbad=1\n");
    }
    let text = b"kind=logon n=1 dup=0 new=0\nno\nkind=business n=2 dup=0 new=0\n";
    assert_eq!(
        printed_by_both(text),
        "sheet=1\nrow=session first=1 last=1 next=2 out=none\nbad=2\n"
    );
}

#[test]
fn daysheet_stops_and_resets() {
    let text = b"kind=logon n=1 dup=0 new=0
kind=reset n=4294967295 dup=0 new=7
kind=reset n=1 dup=0 new=7
kind=business n=6 dup=0 new=0
kind=business n=7 dup=0 new=0
";
    assert_eq!(
        printed_by_both(text),
        "sheet=1
row=session first=1 last=1 next=2 out=none
row=reset first=2 last=6 next=7 out=none
row=none first=0 last=0 next=7 out=none
row=none first=0 last=0 next=7 out=logout
row=none first=0 last=0 next=7 out=none
"
    );
}

/// Document 02, item 3: more resends, and in the end a logout.
#[test]
fn daysheet_with_holes() {
    assert_eq!(
        printed_by_both(make::SHEET_WITH_HOLES),
        "sheet=1
row=session first=1 last=1 next=2 out=none
row=none first=0 last=0 next=2 out=resend
row=none first=0 last=0 next=2 out=resend
row=none first=0 last=0 next=2 out=none
row=none first=0 last=0 next=2 out=resend
row=business first=2 last=2 next=3 out=none
row=none first=0 last=0 next=3 out=resend
row=none first=0 last=0 next=3 out=none
row=none first=0 last=0 next=3 out=none
row=none first=0 last=0 next=3 out=resend
row=none first=0 last=0 next=3 out=logout
row=none first=0 last=0 next=3 out=none
"
    );
    // Everything asked for arrives: with M passed, the next hole is asked for anew.
    let text = b"kind=logon n=1 dup=0 new=0
kind=business n=3 dup=1 new=0
kind=business n=3 dup=1 new=0
kind=gapfill n=2 dup=1 new=4
kind=business n=5 dup=1 new=0
kind=business n=6 dup=0 new=0
kind=business n=6 dup=1 new=0
kind=business n=6 dup=1 new=0
kind=business n=6 dup=1 new=0
";
    assert_eq!(
        printed_by_both(text),
        "sheet=1
row=session first=1 last=1 next=2 out=none
row=none first=0 last=0 next=2 out=resend
row=none first=0 last=0 next=2 out=resend
row=filled first=2 last=3 next=4 out=none
row=none first=0 last=0 next=4 out=resend
row=none first=0 last=0 next=4 out=none
row=none first=0 last=0 next=4 out=resend
row=none first=0 last=0 next=4 out=resend
row=none first=0 last=0 next=4 out=logout
"
    );
}

// ---- Daysheet, the plain recorder (document 02, item 11) ----

/// E is the last number there is, and M may be it too: neither is ever passed, and
/// the message that bears it stops the session.
#[test]
fn both_recorders_stop_at_the_last_number() {
    for (line, out) in [
        ("kind=business n=4294967295 dup=0 new=0", "logout"),
        ("kind=business n=4294967295 dup=1 new=0", "logout"),
        ("kind=gapfill n=4294967295 dup=1 new=4294967295", "logout"),
        ("kind=gapfill n=4294967294 dup=1 new=4294967295", "none"),
        ("kind=reset n=4294967295 dup=0 new=4294967295", "none"),
    ] {
        let text = format!(
            "kind=logon n=1 dup=0 new=0
kind=business n=4294967295 dup=0 new=0
kind=business n=4294967295 dup=1 new=0
kind=gapfill n=2 dup=1 new=4294967294
kind=business n=4294967295 dup=1 new=0
kind=business n=4294967294 dup=1 new=0
{}
",
            line
        );
        let output = format!(
            "sheet=1
row=session first=1 last=1 next=2 out=none
row=none first=0 last=0 next=2 out=resend
row=none first=0 last=0 next=2 out=resend
row=filled first=2 last=4294967293 next=4294967294 out=none
row=none first=0 last=0 next=4294967294 out=resend
row=business first=4294967294 last=4294967294 next=4294967295 out=none
row=none first=0 last=0 next=4294967295 out={}
",
            out
        );
        assert_eq!(printed_by_both(text.as_bytes()), output);
    }
    // A logon ahead of E begins the day even so, and takes and asks nothing.
    let text = b"kind=logon n=4294967295 dup=0 new=0
kind=business n=1 dup=0 new=0
";
    assert_eq!(
        printed_by_both(text),
        "sheet=1
row=none first=0 last=0 next=1 out=none
row=business first=1 last=1 next=2 out=none
"
    );
}

/// What is ahead with PossDup 0 is no repeat, at any count; two are asked, and the
/// third stops.
#[test]
fn both_recorders_stop_at_the_third_repeat() {
    let text = b"kind=logon n=1 dup=0 new=0
kind=business n=9 dup=1 new=0
kind=business n=3 dup=1 new=0
kind=business n=4 dup=0 new=0
kind=gapfill n=9 dup=1 new=9
kind=business n=5 dup=0 new=0
kind=gapfill n=10 dup=1 new=3
kind=business n=2 dup=1 new=0
";
    assert_eq!(
        printed_by_both(text),
        "sheet=1
row=session first=1 last=1 next=2 out=none
row=none first=0 last=0 next=2 out=resend
row=none first=0 last=0 next=2 out=resend
row=none first=0 last=0 next=2 out=none
row=none first=0 last=0 next=2 out=resend
row=none first=0 last=0 next=2 out=none
row=none first=0 last=0 next=2 out=logout
row=none first=0 last=0 next=2 out=none
"
    );
}

/// Every sheet of up to four lines after a logon, of lines on all sides of E and M.
#[test]
fn both_recorders_print_the_same_on_every_short_sheet() {
    const LINES: [&str; 11] = [
        "kind=logon n=2 dup=0 new=0\n",
        "kind=business n=2 dup=0 new=0\n",
        "kind=business n=2 dup=1 new=0\n",
        "kind=business n=3 dup=0 new=0\n",
        "kind=business n=3 dup=1 new=0\n",
        "kind=business n=4 dup=1 new=0\n",
        "kind=gapfill n=2 dup=1 new=2\n",
        "kind=gapfill n=2 dup=1 new=3\n",
        "kind=gapfill n=3 dup=1 new=5\n",
        "kind=reset n=1 dup=0 new=2\n",
        "kind=reset n=5 dup=0 new=4\n",
    ];
    let mut sheets = vec![
        String::new(),
        String::from("kind=logon n=1 dup=0 new=0\n"),
        String::from("kind=logon n=2 dup=0 new=0\n"),
    ];
    let mut from = 0;
    for _ in 0..4 {
        let until = sheets.len();
        for at in from..until {
            sheets.extend(LINES.map(|line| sheets[at].clone() + line));
        }
        from = until;
    }
    for sheet in &sheets {
        printed_by_both(sheet.as_bytes());
    }
}

#[test]
fn both_recorders_print_the_same_on_random_sheets() {
    let mut rng = Rng::new(31);
    let mut all = String::new();
    for round in 0..400 {
        let count = if round % 20 == 0 { 300 } else { rng.index(40) };
        let sheet = if rng.chance(50) {
            make::hole_sheet(&mut rng, count)
        } else {
            make::sheet(&mut rng, count)
        };
        all += &printed_by_both(&sheet);
    }
    // The sheets bring out everything that a line can.
    for part in [
        "row=none",
        "row=business",
        "row=session",
        "row=filled",
        "row=reset",
        "out=none",
        "out=resend",
        "out=logout",
        "bad=",
    ] {
        assert!(all.contains(part), "{}", part);
    }
}

/// What both print for as many lines as the list holds, and one line more of the
/// plain recorder's.
fn printed_of_a_full_list(full: &[u8], last: &str) -> Vec<u8> {
    let mut printed = printed_by_both(full);
    assert_eq!(printed.lines().count(), 1 + MOST_KEPT);
    printed += last;
    printed.into_bytes()
}

#[test]
fn the_plain_recorder_takes_4096_lines_and_refuses_the_next() {
    assert_eq!((MOST_KEPT, LIST_FULL), (4_096, 41));
    let full = make::long_sheet(4_096);
    let unended = &full[..full.len() - 1];
    assert_eq!(printed_by_both(unended), printed_by_both(&full));
    let refused = printed_of_a_full_list(&full, "refused=41 line=4097\n");
    for count in [4_097, 4_098, 10_000] {
        let text = make::long_sheet(count);
        assert_eq!(daysheet::plain(&text), refused);
        assert!(daysheet(&text).len() > refused.len());
    }
    // Nothing behind the refused line is read, not even a bad one.
    let text = [&make::long_sheet(4_097)[..], b"no\n"].concat();
    assert_eq!(daysheet::plain(&text), refused);
}

/// Lines that do nothing are kept all the same: the session is Down from the second
/// line on.
#[test]
fn the_plain_recorder_keeps_lines_after_a_stop() {
    let logon = b"kind=logon n=1 dup=0 new=0\n";
    let full = logon.repeat(4_096);
    let refused = printed_of_a_full_list(&full, "refused=41 line=4097\n");
    assert_eq!(daysheet::plain(&logon.repeat(4_097)), refused);
}

#[test]
fn the_plain_recorder_reads_a_line_before_it_asks_for_room() {
    let full = make::long_sheet(4_096);
    let bad = printed_of_a_full_list(&full, "bad=4097\n");
    for line in ["no\n", "\n", "kind=business n=4097 dup=2 new=0"] {
        let text = [&full[..], line.as_bytes()].concat();
        assert_eq!(daysheet::plain(&text), bad);
        assert_eq!(daysheet(&text), bad);
    }
}

// ---- Reader ----

#[test]
fn reader_refusals_in_order() {
    let good = framed(2, 5, &[0, 1], &[1, 0, 0, 0, 0, 0, 0, 0]);
    assert!(reader::read(&good).is_ok());
    let refused = |bytes: &[u8]| reader::read(bytes).unwrap_err();

    assert_eq!(refused(&[2]), refuse(1, 3));
    assert_eq!(refused(&[2, 58]), refuse(1, 3));
    assert_eq!(refused(&[0, 58]), refuse(2, 0));
    assert_eq!(refused(&good[..65]), refuse(1, 66));
    assert_eq!(refused(&[2, 1, 16]), refuse(3, 0)); // 4,097
    assert_eq!(refused(&[2, 0, 16]), refuse(1, 4096));

    let mut sum = good.clone();
    sum[40] ^= 1;
    assert_eq!(refused(&sum), refuse(4, 66));
    assert_eq!(refused(&framed(11, 0, &[], &[])), refuse(5, 0));
    assert_eq!(refused(&framed(0, 0, &[1], &[])), refuse(6, 0));
    for (at, value) in [
        (8, 2),
        (9, 2),
        (10, 0),
        (10, 31),
        (19, 127),
        (10, 128),
        (19, 255),
    ] {
        let mut bytes = good.clone();
        bytes[at] = value;
        make::reseal(&mut bytes);
        assert_eq!(refused(&bytes), refuse(6, 0));
    }
    let mut no_null = good.clone();
    no_null[10..22].copy_from_slice(b"ABCDEFGHIJKL");
    make::reseal(&mut no_null);
    assert_eq!(refused(&no_null), refuse(6, 0));

    assert_eq!(refused(&framed(2, 1, &[2, 255], &[])), refuse(7, 2));
    assert_eq!(refused(&framed(2, 1, &[0, 1, 255], &[])), refuse(7, 255));
    assert_eq!(refused(&framed(10, 1, &[10], &[])), refuse(7, 10));
    assert_eq!(refused(&framed(2, 1, &[1], &[])), refuse(8, 1 - 1));
    assert_eq!(refused(&framed(2, 1, &[0], &[])), refuse(8, 1));
    assert_eq!(refused(&framed(2, 1, &[0, 1], &[0; 7])), refuse(9, 1));
    assert_eq!(refused(&framed(2, 1, &[0, 1], &[0; 3])), refuse(9, 0));
    assert_eq!(refused(&framed(2, 1, &[0, 1], &[0; 11])), refuse(10, 3));
    assert_eq!(
        refused(&framed(4, 1, &[0, 1], &[b'y', 1, 0, 0, 0])),
        refuse(9, 0)
    );
}

#[test]
fn variable_texts() {
    let logout = |body: &[u8]| framed(6, 1, &[0], body);
    let text = |body: &[u8]| reader::ask_text(&logout(body), 0).map(|text| text.to_vec());
    assert_eq!(text(&[1, 0, 0]), Ok(vec![]));
    assert_eq!(text(&[3, 0, b'A', b'~', 0]), Ok(b"A~".to_vec()));
    assert_eq!(text(&[5, 0, b'A', 0, 9, 200, 0]), Ok(b"A".to_vec()));
    for bad in [
        &[0, 0][..],
        &[1][..],
        &[],
        &[1, 0],
        &[1, 0, b'A'],
        &[2, 0, b'A', b'B'],
        &[2, 0, 31, 0],
        &[2, 0, 127, 0],
        &[2, 0, 128, 0],
        &[2, 0, 255, 0],
    ] {
        assert_eq!(text(bad), Err(refuse(9, 0)), "{:?}", bad);
    }
    let long = |length: usize| {
        let mut body = vec![length as u8, 0];
        body.resize(2 + length - 1, b'A');
        body.push(0);
        text(&body)
    };
    assert_eq!(long(75).unwrap().len(), 74);
    assert_eq!(long(76), Err(refuse(9, 0)));
}

/// Texts of which Text and Reason alone may be (document 02, item 8).
const ACCENTED: [&[u8]; 4] = [b"\x80", b"\xFF", b"Caf\xE9 M\xFCller", b"\x9F\xA0"];

/// What no text may be.
const NO_TEXTS: [&[u8]; 6] = [b"\x7F", b"\x1F", b"\x01", b"\n", b"\xE9\x7F", b"\xE9\x1F"];

/// Document 02, item 8: the wide set has 128 to 255 besides, and both leave out
/// 127 and what is below 32.
#[test]
fn the_two_sets() {
    for byte in 0..=255 {
        let narrow = Allowed::Ascii.allows(byte);
        let wide = Allowed::Accented.allows(byte);
        assert_eq!(narrow, (32..127).contains(&byte));
        assert_eq!(wide, byte >= 32 && byte != 127);
        assert!(wide || !narrow);
    }
}

/// What the text reader finds, with the narrow set and with the wide one.
fn texts_in(bytes: &[u8]) -> [Option<&[u8]>; 2] {
    [Allowed::Ascii, Allowed::Accented].map(|allowed| wire::before_null(bytes, allowed))
}

#[test]
fn text_reader_takes_the_set() {
    for good in [&b""[..], b" ~", b"Reason"] {
        let bytes = [good, b"\0\x7F\xE9"].concat();
        assert_eq!(texts_in(&bytes), [Some(good); 2]);
    }
    for accented in ACCENTED {
        let bytes = [accented, b"\0\x7F\xE9"].concat();
        assert_eq!(texts_in(&bytes), [None, Some(accented)]);
    }
    for bad in [&b""[..], b"A", b"\xE9", b"\x7F\0", b"\xE9\x7F\0", b"\x1F\0"] {
        assert_eq!(texts_in(bad), [None; 2]);
    }
}

/// A variable text in plain form.
fn variable(text: &[u8]) -> Vec<u8> {
    let length = text.len() as u16 + 1;
    [&length.to_le_bytes()[..], text, &[0]].concat()
}

/// A message with a text at a position.
struct FreeText {
    message: Vec<u8>,
    position: u32,
}

/// For every Text and every Reason that the tables of 004 have, a message with
/// this one, and of the other fields only those that are required.
fn free_texts(text: &[u8]) -> [FreeText; 6] {
    let text = &variable(text)[..];
    // 7.7.6 Reject: Message Reject Code, Reason, Reference Sequence Number.
    let reject = [&[99, 0][..], text, &[7, 0, 0, 0]].concat();
    // 7.7.1 Logon: Next Expected Message Sequence, Text.
    let logon = [&[4, 0, 0, 0][..], text].concat();
    // 7.6.2 Lookup Response: Status, Reason.
    let lookup = [&[1][..], text].concat();
    // 7.11.1 Business Message Reject: Business Reject Code, Reason, Reference
    // Message Type.
    let business = [&[4, 0][..], text, &[10]].concat();
    // 7.8: Text and Reason stand before position 21, which began at 81 of the
    // body.
    let (required, mut report) = required_body();
    report.splice(81..81, text.to_vec());
    let with = |position| [&required[..], &[position]].concat();
    [
        (3, 1, vec![0, 1, 4], &reject),
        (5, 4, vec![2, 4], &logon),
        (8, 2, vec![0, 2], &lookup),
        (9, 1, vec![0, 1, 2], &business),
        (10, 19, with(19), &report),
        (10, 20, with(20), &report),
    ]
    .map(|(message_type, position, positions, body)| FreeText {
        message: framed(message_type, 3, &positions, body),
        position,
    })
}

/// Document 02, item 8: Text and Reason take what no other text takes.
#[test]
fn accented_texts() {
    let first: Vec<u8> = (128..=176).collect();
    let last: Vec<u8> = (207..=255).collect();
    // The third is what UTF-8 makes of an e with its accent and of a euro sign.
    let others = [&b""[..], b"plain", b"\xC3\xA9 \xE2\x82\xAC", &first, &last];
    for &text in ACCENTED.iter().chain(&others) {
        for FreeText { message, position } in free_texts(text) {
            assert_eq!(reader::read(&message).unwrap().length, message.len());
            assert_eq!(plain::read(&message), reader::read(&message));
            assert_eq!(reader::ask_text(&message, position), Ok(text));
            assert_eq!(plain::ask_text(&message, position), Ok(text));
            let (_, fields) = reader::list(&message, LIST).unwrap();
            let listed = fields.iter().find(|field| field[0] == u64::from(position));
            let [_, sort, _, length, value] = *listed.unwrap();
            assert_eq!((sort, length, value), (3, text.len() as u64, 0));
        }
    }
    // The null ends them as it ends the others.
    for FreeText { message, position } in free_texts(b"\xE9\0\x7F\x1F") {
        assert_eq!(reader::ask_text(&message, position), Ok(&b"\xE9"[..]));
        assert_eq!(plain::ask_text(&message, position), Ok(&b"\xE9"[..]));
    }
    let others = [
        &b"A\x7F"[..],
        b"\x7F\xE9",
        b"\xFF\xFF\xFF\xFF\xFF\xFF\xFF\x7F\xFF",
        b"\x80\x80\x80\x80\x80\x80\x80\x80\x1F",
    ];
    for &text in NO_TEXTS.iter().chain(&others) {
        for FreeText { message, position } in free_texts(text) {
            let refused = Err(refuse(9, position as usize));
            assert_eq!(reader::read(&message), refused);
            assert_eq!(plain::read(&message), refused);
        }
    }
}

/// All other texts are as they were.
#[test]
fn other_texts_are_not_accented() {
    let (positions, body) = required_body();
    let with_first = |at: usize, byte| {
        let mut body = body.clone();
        body[at] = byte;
        framed(10, 1, &positions, &body)
    };
    let password = |byte| [padded(&[byte], 450), vec![1, 0, 0, 0]].concat();
    for byte in [127, 128, 159, 160, 233, 255] {
        for (message, refusal) in [
            // 7.7.2: Logout Text is another field than Text.
            (framed(6, 1, &[0], &variable(&[byte])), refuse(9, 0)),
            // 7.7.1: Password and New Password.
            (framed(5, 1, &[0, 2], &password(byte)), refuse(9, 0)),
            (framed(5, 1, &[1, 2], &password(byte)), refuse(9, 1)),
            // 7.8: Submitting Broker ID, Security ID and, behind Transaction
            // Time and Side, Order ID.
            (with_first(0, byte), refuse(9, 1)),
            (with_first(12, byte), refuse(9, 2)),
            (with_first(60, byte), refuse(9, 9)),
        ] {
            assert_eq!(reader::read(&message), Err(refusal));
            assert_eq!(plain::read(&message), Err(refusal));
        }
        // 7.4: the Comp ID, whose ten characters begin at byte 10.
        for at in 10..20 {
            let mut message = business(1);
            message[at] = byte;
            make::reseal(&mut message);
            assert_eq!(reader::read(&message), Err(refuse(6, 0)));
            assert_eq!(plain::read(&message), Err(refuse(6, 0)));
        }
    }
}

#[test]
fn asking() {
    let logon = written(&head(5, 3), &[1, 2, 4], &{
        let mut body = vec![b'p'; 449];
        body.push(0);
        body.extend_from_slice(&[9, 0, 0, 0, 3, 0, b'h', b'i', 0]);
        body
    });
    assert_eq!(reader::ask_text(&logon, 1).unwrap().len(), 449);
    assert_eq!(reader::ask_number(&logon, 2), Ok(Value::Number(9)));
    assert_eq!(reader::ask_text(&logon, 4), Ok(&b"hi"[..]));
    assert_eq!(reader::ask_text(&logon, 2), Err(refuse(14, 0)));
    assert_eq!(reader::ask_number(&logon, 4), Err(refuse(14, 0)));
    assert_eq!(reader::ask_number(&logon, 1), Err(refuse(14, 0)));
    // 13 before 14: the Password is clear, whichever sort is asked.
    assert_eq!(reader::ask_number(&logon, 0), Err(refuse(13, 0)));
    assert_eq!(reader::ask_text(&logon, 5), Err(refuse(13, 0)));
    for position in [6, 255, 256, 4096, u32::MAX] {
        assert_eq!(
            reader::ask_number(&logon, position),
            Err(Refusal {
                number: 7,
                besides: position
            })
        );
    }
    assert_eq!(reader::comp_id(&logon), US);
    assert_eq!(reader::body(&logon).len(), logon.len() - LEAST);
    let cut = &logon[..logon.len() - 1];
    assert_eq!(reader::ask_text(cut, 99), Err(refuse(1, logon.len())));
    assert!(reader::comp_id(cut).is_empty());
    assert!(reader::map(cut).is_empty());
    assert!(reader::body(cut).is_empty());

    let fill = writer::gap_fill(2, US, 7).unwrap();
    assert_eq!(reader::ask_number(&fill, 0), Ok(Value::Number(89)));
    assert_eq!(reader::read(&fill).unwrap().poss_dup, 1);
}

/// A fixed text in plain form.
fn padded(text: &[u8], width: usize) -> Vec<u8> {
    let mut bytes = text.to_vec();
    bytes.resize(width, 0);
    bytes
}

/// A Business Message Reject with all its fields: numbers of three widths, a
/// variable text with bytes after its null, a fixed text and an empty one.
fn business_reject() -> Vec<u8> {
    let body = [
        &[0x34, 0x12][..],
        &[6, 0, b'n', b'o', 0, 200, 0, b'x'],
        &[10],
        &padded(b"Side", 50),
        &[0xFF, 0xFE, 0xFD, 0xFC],
        &padded(b"", 21),
    ]
    .concat();
    framed(9, 8, &[0, 1, 2, 3, 4, 5], &body)
}

#[test]
fn listing() {
    let listed = |bytes: &[u8]| {
        let (head, fields) = reader::list(bytes, LIST).unwrap();
        assert_eq!(Ok(head), reader::read(bytes));
        fields
    };
    // The body begins at 54. The numbers of a field: position, sort (1 a number,
    // 2 a Decimal, 3 a text), offset, length, value.
    let reject = business_reject();
    let fields = [
        [0, 1, 54, 2, 0x1234],
        [1, 3, 58, 2, 0],
        [2, 1, 64, 1, 10],
        [3, 3, 65, 4, 0],
        [4, 1, 115, 4, 0xFCFD_FEFF],
        [5, 3, 119, 0, 0],
    ];
    assert_eq!(listed(&reject), fields);
    assert_eq!(reject[58..60], *b"no");
    assert_eq!(reject[65..69], *b"Side");
    // What stands behind the message is not looked at.
    assert_eq!(listed(&[&reject[..], &reject].concat()), fields);

    // An execution report: what is required, all zeros but for the Security ID
    // and the Cumulative Quantity, with a Price below zero and an empty Text.
    let (mut positions, mut body) = required_body();
    body[12..15].copy_from_slice(b"700");
    body[104..112].copy_from_slice(&i64::MIN.to_le_bytes());
    positions.extend([12, 19]);
    // Price and Text stand before position 21, which began at 81 of the body.
    body.splice(81..81, [0xFE, 255, 255, 255, 255, 255, 255, 255, 1, 0, 0]);
    assert_eq!(
        listed(&framed(10, 1, &positions, &body)),
        [
            [1, 3, 54, 0, 0],
            [2, 3, 66, 3, 0],
            [3, 1, 87, 1, 0],
            [6, 3, 88, 0, 0],
            [7, 1, 113, 1, 0],
            [9, 3, 114, 0, 0],
            [12, 2, 135, 8, -2_i64 as u64],
            [19, 3, 145, 0, 0],
            [21, 3, 146, 0, 0],
            [22, 1, 167, 1, 0],
            [23, 1, 168, 1, 0],
            [24, 2, 169, 8, i64::MIN as u64],
            [25, 2, 177, 8, 0],
            [37, 1, 185, 1, 0],
        ]
    );

    // A Byte is a number.
    let fill = writer::gap_fill(2, US, 7).unwrap();
    assert_eq!(listed(&fill), [[0, 1, 54, 1, 89], [1, 1, 55, 4, 7]]);
    let heartbeat = writer::heartbeat(1, US).unwrap();
    assert!(listed(&heartbeat).is_empty());
}

#[test]
fn listing_refusals_in_order() {
    let refused = |bytes: &[u8], room| reader::list(bytes, room).unwrap_err();
    let reject = business_reject();
    let needed = 6 * A_FIELD;
    for room in [needed, needed + 1, LIST] {
        assert_eq!(reader::list(&reject, room).unwrap().1.len(), 6);
    }
    for room in [0, 1, needed - A_FIELD, needed - 1] {
        assert_eq!(refused(&reject, room), refuse(11, needed));
    }
    let heartbeat = writer::heartbeat(1, US).unwrap();
    assert!(reader::list(&heartbeat, 0).is_ok());

    // The reader's refusals come before 11.
    let cut = &reject[..reject.len() - 1];
    assert_eq!(refused(cut, 0), refuse(1, reject.len()));
    let mut sum = reject.clone();
    sum[70] ^= 1;
    assert_eq!(refused(&sum, 0), refuse(4, reject.len()));
    assert_eq!(refused(&framed(2, 1, &[0, 1], &[0; 7]), 0), refuse(9, 1));
    assert_eq!(refused(&framed(2, 1, &[0, 1], &[0; 11]), 0), refuse(10, 3));
}

/// What a list says of a position is what asking there says, and the positions
/// that it leaves out are clear or unknown.
#[test]
fn lists_what_asking_says() {
    let mut rng = Rng::new(22);
    for _ in 0..400 {
        let message_type = make::message_type(&mut rng);
        let number = rng.any_u32().max(1);
        let comp_id = make::comp_id(&mut rng);
        let bytes = make::message(&mut rng, message_type, number, &comp_id);
        let (_, fields) = reader::list(&bytes, LIST).unwrap();
        let mut fields = fields.into_iter().peekable();
        for asked in 0..256 {
            let listed = fields.next_if(|field| field[0] == u64::from(asked));
            let number = reader::ask_number(&bytes, asked);
            let text = reader::ask_text(&bytes, asked);
            let [_, sort, offset, length, value] = match listed {
                Some(field) => field,
                None => {
                    let refusal = number.unwrap_err();
                    assert_eq!(text, Err(refusal));
                    assert!(refusal.number == 7 || refusal.number == 13);
                    continue;
                }
            };
            let part = &bytes[offset as usize..(offset + length) as usize];
            match sort {
                1 => assert_eq!(number, Ok(Value::Number(value))),
                2 => assert_eq!(number, Ok(Value::Decimal(value as i64))),
                _ => assert_eq!((sort, text, value), (3, Ok(part), 0)),
            }
            match text {
                // The same bytes of the caller, not only the same characters.
                Ok(text) => assert_eq!(part.as_ptr(), text.as_ptr()),
                Err(_) => assert_eq!(wire::number(part), value),
            }
        }
        assert_eq!(fields.next(), None);
    }
}

// ---- Writer ----

#[test]
fn writer_refusals_in_order() {
    let body = [1, 0, 0, 0, 0, 0, 0, 0];
    let map = map_of(&[0, 1]);
    let refused = |head: &HeadValues, comp_id: &[u8], positions: &[usize], body: &[u8]| {
        let mut out = [0xEE; MOST];
        let result = writer::write(head, comp_id, &map_of(positions), body, &mut out);
        assert!(out.iter().all(|&byte| byte == 0xEE));
        result.unwrap_err()
    };
    assert_eq!(refused(&head(11, 0), b"", &[9], &[]), refuse(5, 0));
    assert_eq!(refused(&head(2, 0), US, &[9], &[]), refuse(6, 0));
    for comp_id in [&b""[..], b"ABCDEFGHIJKL", b"A\0", b"\x7f"] {
        assert_eq!(refused(&head(2, 1), comp_id, &[9], &[]), refuse(6, 0));
    }
    for (poss_dup, poss_resend) in [(2, 0), (0, 2), (255, 1)] {
        let head = HeadValues {
            poss_dup,
            poss_resend,
            ..head(2, 1)
        };
        assert_eq!(refused(&head, US, &[0, 1], &body), refuse(6, 0));
    }
    assert_eq!(refused(&head(2, 1), US, &[9], &[]), refuse(7, 9));
    assert_eq!(refused(&head(2, 1), US, &[1], &[]), refuse(8, 0));
    assert_eq!(refused(&head(2, 1), US, &[0, 1], &[0; 7]), refuse(9, 1));
    assert_eq!(
        refused(&head(2, 1), US, &[0, 1], &[0; 5000]),
        refuse(10, 4992)
    );
    let mut out = [0xEE; 70];
    assert_eq!(
        writer::write(&head(2, 1), US, &map, &body, &mut out[..65]),
        Err(refuse(11, 66))
    );
    assert!(out.iter().all(|&byte| byte == 0xEE));
    assert_eq!(
        writer::write(&head(2, 1), b"ABCDEFGHIJK", &map, &body, &mut out),
        Ok(66)
    );
    assert_eq!(&out[66..], [0xEE; 4]);
    assert_eq!(reader::comp_id(&out), b"ABCDEFGHIJK");
}

#[test]
fn text_writer() {
    let mut out = [0xEE; 8];
    let put_text = |text, width, out: &mut [u8]| {
        // What is right in the narrow set is right in the wide one.
        let narrow = writer::put_text(text, width, Allowed::Ascii, &mut out.to_vec());
        let wide = writer::put_text(text, width, Allowed::Accented, out);
        assert_eq!(narrow, wide);
        wide
    };
    assert_eq!(put_text(b"AB", 5, &mut out), Ok(5));
    assert_eq!(out, [b'A', b'B', 0, 0, 0, 0xEE, 0xEE, 0xEE]);
    assert_eq!(put_text(b"", 1, &mut out), Ok(1));
    assert_eq!(put_text(b"", 0, &mut []), Err(refuse(9, 0)));
    assert_eq!(put_text(b"", 4097, &mut []), Err(refuse(9, 0)));
    assert_eq!(put_text(b"AB", 2, &mut []), Err(refuse(9, 0)));
    assert_eq!(put_text(b"\x1f", 9, &mut []), Err(refuse(9, 0)));
    assert_eq!(put_text(b"\0", 9, &mut []), Err(refuse(9, 0)));
    assert_eq!(put_text(b"A", 9, &mut out), Err(refuse(11, 9)));
    assert_eq!(put_text(b"", 4096, &mut out), Err(refuse(11, 4096)));
    assert_eq!(writer::put_u8(1, &mut []), Err(refuse(11, 1)));
    assert_eq!(writer::put_u16(1, &mut out[..1]), Err(refuse(11, 2)));
    assert_eq!(writer::put_u32(1, &mut out[..3]), Err(refuse(11, 4)));
    assert_eq!(writer::put_u64(1, &mut out[..7]), Err(refuse(11, 8)));
    assert_eq!(writer::put_decimal(1, &mut out[..7]), Err(refuse(11, 8)));
    assert_eq!(writer::put_u16(0x0102, &mut out), Ok(2));
    assert_eq!(out[..3], [2, 1, 0]);
}

/// Document 02, item 8: the caller says which characters the text writer takes.
#[test]
fn text_writer_takes_the_set() {
    for text in ACCENTED {
        let mut out = [0xEE; 14];
        let narrow = writer::put_text(text, 12, Allowed::Ascii, &mut out);
        assert_eq!(narrow, Err(refuse(9, 0)));
        assert_eq!(out, [0xEE; 14]);
        let wide = writer::put_text(text, 12, Allowed::Accented, &mut out);
        assert_eq!(wide, Ok(12));
        assert_eq!(out[..12], padded(text, 12));
        assert_eq!(out[12..], [0xEE; 2]);
    }
    // The writer is given no null.
    for &text in NO_TEXTS.iter().chain(&[&b"\0"[..], b"\xE9\0"]) {
        for allowed in [Allowed::Ascii, Allowed::Accented] {
            let mut out = [0xEE; 8];
            let answer = writer::put_text(text, 6, allowed, &mut out);
            assert_eq!(answer, Err(refuse(9, 0)));
            assert_eq!(out, [0xEE; 8]);
        }
    }
    // The width is looked at in both.
    for allowed in [Allowed::Ascii, Allowed::Accented] {
        for width in [0, 2, MOST + 1] {
            let answer = writer::check_text(b"AB", width, allowed);
            assert_eq!(answer, Err(refuse(9, 0)));
        }
        assert_eq!(writer::check_text(b"AB", 3, allowed), Ok(()));
    }
}

/// What the parts of a message are written as.
fn written_again(message: &[u8]) -> Result<Vec<u8>, Refusal> {
    let mut map = [0; MAP_WIDTH];
    map.copy_from_slice(&message[22..54]);
    let given = ToWrite {
        head: head(message[3], 3),
        comp_id: US.to_vec(),
        map,
        body: message[54..message.len() - 4].to_vec(),
    };
    written_with(&given, MOST)
}

#[test]
fn accented_texts_are_written() {
    for text in ACCENTED {
        for FreeText { message, .. } in free_texts(text) {
            assert_eq!(written_again(&message), Ok(message));
        }
        // The plain form has nothing behind the null.
        let long = free_texts(&[text, b"\0\x7F\xE9"].concat());
        for (long, short) in long.iter().zip(free_texts(text)) {
            assert_eq!(written_again(&long.message), Ok(short.message));
        }
    }
    for text in NO_TEXTS {
        for FreeText { message, position } in free_texts(text) {
            let refused = Err(refuse(9, position as usize));
            assert_eq!(written_again(&message), refused);
        }
    }
    let logout = framed(6, 3, &[0], &variable(b"\xE9"));
    assert_eq!(written_again(&logout), Err(refuse(9, 0)));
    for comp_id in [&b"\x80"[..], b"RECORDER\xFF"] {
        let answer = writer::write(&head(0, 1), comp_id, &map_of(&[]), &[], &mut [0; MOST]);
        assert_eq!(answer, Err(refuse(6, 0)));
    }
}

#[test]
fn session_messages() {
    let logon = writer::logon(7, US, b"secret", 4).unwrap();
    assert_eq!(logon.len(), 54 + 450 + 4 + 4);
    assert_eq!(reader::ask_text(&logon, 0), Ok(&b"secret"[..]));
    assert_eq!(reader::ask_number(&logon, 2), Ok(Value::Number(4)));
    assert!(writer::logon(7, US, &[b'x'; 449], 4).is_ok());
    assert_eq!(
        writer::logon(7, US, &[b'x'; 450], 4),
        Err(refuse(9, 0)),
        "449 characters at most"
    );
    assert_eq!(writer::logon(7, US, b"\x80", 4), Err(refuse(9, 0)));
    assert_eq!(writer::logon(0, US, b"\x80", 4), Err(refuse(9, 0)));
    assert_eq!(writer::logon(0, US, b"x", 4), Err(refuse(6, 0)));

    for (bytes, message_type, length) in [
        (writer::logout(1, US), 6, 58),
        (writer::heartbeat(1, US), 0, 58),
        (writer::heartbeat_for(1, US, 700), 0, 60),
        (writer::test_request(1, US, 700), 1, 60),
        (writer::resend_request(1, US, 1, 0), 2, 66),
        (writer::gap_fill(1, US, 2), 4, 63),
    ] {
        let bytes = bytes.unwrap();
        let head = reader::read(&bytes).unwrap();
        assert_eq!(
            (head.message_type, head.length, bytes.len()),
            (message_type, length, length)
        );
        assert_eq!(head.poss_dup, (message_type == 4) as u8);
    }
}

/// Each type made, read, asked, written again in plain form, and read and asked
/// again with the same answers.
#[test]
fn every_type_there_and_back() {
    let mut rng = Rng::new(1);
    for round in 0..400 {
        for message_type in 0..=10 {
            let comp_id = make::comp_id(&mut rng);
            let number = rng.any_u32().max(1);
            let bytes = make::message(&mut rng, message_type, number, &comp_id);
            let head = reader::read(&bytes).unwrap_or_else(|r| panic!("{} {:?}", round, r));
            assert_eq!((head.message_type, head.number), (message_type, number));
            assert_eq!(head.length, bytes.len());
            assert_eq!(reader::comp_id(&bytes), comp_id);
            let mut map = [0; MAP_WIDTH];
            map.copy_from_slice(reader::map(&bytes));
            let values = HeadValues {
                message_type,
                number,
                poss_dup: head.poss_dup,
                poss_resend: head.poss_resend,
            };
            let mut out = [0; MOST];
            let body = reader::body(&bytes);
            let length = writer::write(&values, &comp_id, &map, body, &mut out).unwrap();
            assert!(length <= tables::longest(message_type));
            let out = &out[..length];
            let again = reader::read(out).unwrap();
            assert_eq!(again, reader::Head { length, ..head });
            assert_eq!(reader::map(out), map);
            for position in 0..300 {
                let number = reader::ask_number(&bytes, position);
                let text = reader::ask_text(&bytes, position);
                assert_eq!(number, reader::ask_number(out, position));
                assert_eq!(text, reader::ask_text(out, position));
                let entry = tables::find(message_type, position as usize);
                match entry {
                    None => assert_eq!(text.unwrap_err().number, 7),
                    Some(_) if !is_set(&map, position as usize) => {
                        assert_eq!(text.unwrap_err().number, 13)
                    }
                    Some(entry) => {
                        let is_text = entry.field.is_text();
                        assert_eq!(text.is_ok(), is_text);
                        assert_eq!(number.is_ok(), !is_text);
                    }
                }
            }
            // What is plain is written as it stands.
            let mut twice = [0; MOST];
            let body = reader::body(out);
            let length = writer::write(&values, &comp_id, &map, body, &mut twice).unwrap();
            assert_eq!(&twice[..length], out);
        }
    }
}

/// What is written into a buffer with so much room. The plain side must do the
/// same, and both must leave alone what stands behind, and on a refusal all.
fn written_with(given: &ToWrite, room: usize) -> Result<Vec<u8>, Refusal> {
    let (mut out, mut fast) = ([0xEE; MOST], [0xEE; MOST]);
    let answer = given.write(&mut out[..room]);
    let (id, body) = (&given.comp_id, &given.body);
    let plain = plain::write(&given.head, id, &given.map, body, &mut fast[..room]);
    assert_eq!(plain, answer, "{:?}", given);
    assert_eq!(fast, out, "{:?}", given);
    let length = answer.unwrap_or(0);
    assert!(out[length..].iter().all(|&byte| byte == 0xEE));
    answer.map(|length| out[..length].to_vec())
}

/// What was written reads as what the writer was given. The body is the same as
/// well, since it was given in plain form.
fn reads_as_given(bytes: &[u8], given: &ToWrite) {
    let head = reader::Head {
        message_type: given.head.message_type,
        number: given.head.number,
        poss_dup: given.head.poss_dup,
        poss_resend: given.head.poss_resend,
        length: bytes.len(),
    };
    assert_eq!(reader::read(bytes), Ok(head));
    assert_eq!(plain::read(bytes), Ok(head));
    assert_eq!(reader::comp_id(bytes), given.comp_id);
    assert_eq!(reader::map(bytes), given.map);
    assert_eq!(reader::body(bytes), given.body);
}

/// How many characters a text of a message has.
fn count_of(bytes: &[u8], text: Text) -> usize {
    match text {
        Text::CompId => reader::comp_id(bytes).len(),
        Text::At(position, _) => reader::ask_text(bytes, position as u32).unwrap().len(),
    }
}

#[test]
fn the_longest_messages_there_and_back() {
    for message_type in 0..=types::LAST {
        let given = make::longest(message_type);
        let longest = tables::longest(message_type);
        let bytes = written_with(&given, longest).unwrap();
        assert_eq!(bytes.len(), longest);
        reads_as_given(&bytes, &given);
        for text in make::texts(message_type) {
            assert_eq!(count_of(&bytes, text), text.full(), "{:?}", text);
        }
        assert_eq!(written_with(&given, tables::longest_of_all()), Ok(bytes));
        let no_room = refuse(wire::NO_ROOM, longest);
        assert_eq!(written_with(&given, longest - 1), Err(no_room));
        assert_eq!(written_with(&given, 0), Err(no_room));
    }
}

/// A variable text gives its byte back, a fixed one keeps its width.
#[test]
fn one_text_a_character_shorter() {
    for message_type in 0..=types::LAST {
        for short in make::texts(message_type) {
            let given = make::one_shorter(message_type, short);
            let less = match short {
                Text::At(_, field) if matches!(field.sort, Sort::Variable(_)) => 1,
                _ => 0,
            };
            let length = tables::longest(message_type) - less;
            let bytes = written_with(&given, length).unwrap();
            assert_eq!(bytes.len(), length, "{:?}", short);
            reads_as_given(&bytes, &given);
            for text in make::texts(message_type) {
                let count = text.full() - usize::from(text == short);
                assert_eq!(count_of(&bytes, text), count, "{:?}", text);
            }
            let no_room = refuse(wire::NO_ROOM, length);
            assert_eq!(written_with(&given, length - 1), Err(no_room));
        }
    }
}

/// A Comp ID that is too long is a bad header, every other text a bad field,
/// whatever the room is.
#[test]
fn one_text_too_long() {
    for message_type in 0..=types::LAST {
        let longest = tables::longest(message_type);
        for long in make::texts(message_type) {
            let given = make::one_too_long(message_type, long);
            let refusal = match long {
                Text::CompId => refuse(wire::BAD_HEADER, 0),
                Text::At(position, _) => refuse(wire::BAD_FIELD, position),
            };
            for room in [0, longest, longest + 1, MOST] {
                assert_eq!(written_with(&given, room), Err(refusal), "{:?}", long);
            }
        }
    }
}

/// The wrong drawings of document 01 are refused.
#[test]
fn wrong_drawings() {
    // Position 0 in the lowest bit.
    let mut lowest = writer::test_request(1, US, 5).unwrap();
    lowest[22] = 1;
    make::reseal(&mut lowest);
    assert_eq!(reader::read(&lowest), Err(refuse(7, 7)));
    // A checksum over the body only.
    let mut body_only = writer::test_request(1, US, 5).unwrap();
    let sum = crc::crc32c(&body_only[54..56]).to_le_bytes();
    body_only[56..].copy_from_slice(&sum);
    assert_eq!(reader::read(&body_only), Err(refuse(4, 60)));
    // A variable text whose length leaves out its null.
    let without = framed(6, 1, &[0], &[2, 0, b'A', b'B', 0]);
    assert_eq!(reader::read(&without), Err(refuse(9, 0)));
}

// ---- Plan ----

#[test]
fn plan_refusals() {
    let mut out = [[9; 2]; 4];
    let refused = |list: &[u8], start, end| {
        let mut out = [[9; 2]; 4];
        let result = plan(list, start, end, &mut out).unwrap_err();
        assert_eq!(out, [[9; 2]; 4]);
        result
    };
    assert_eq!(refused(&[], 1, 0), refuse(40, 0));
    assert_eq!(refused(&[1, 2], 1, 1), refuse(40, 0));
    assert_eq!(refused(&[1, 1], 0, 0), refuse(40, 0));
    assert_eq!(refused(&[1, 1], 3, 0), refuse(40, 0));
    assert_eq!(refused(&[1, 1], 2, 1), refuse(40, 0));
    assert_eq!(refused(&vec![0; 65_537], 1, 0), refuse(40, 0));
    assert_eq!(refused(&vec![1; 65_536], 1, 0), refuse(11, 65_536));
    assert_eq!(plan(&vec![0; 65_536], 1, 0, &mut out), Ok(1));
    assert_eq!(out[0], [1, 65_537]);
    assert_eq!(plan(&[0, 0, 0, 1], 2, u32::MAX, &mut out), Ok(2));
    assert_eq!(out[..2], [[2, 4], [4, 0]]);
}

/// The plan names each business number of the range once, rising, and the runs
/// cover all the others.
#[test]
fn plan_covers() {
    let mut rng = Rng::new(2);
    for _ in 0..20_000 {
        let list = make::list(&mut rng, 40);
        let (start, end) = (rng.below(44) as u32, rng.below(44) as u32);
        let mut out = [[0; 2]; 40];
        let count = match plan(&list, start, end, &mut out) {
            Ok(count) => count,
            Err(refusal) => {
                let bad = list.iter().any(|&b| b > 1)
                    || start == 0
                    || start as usize > list.len()
                    || (end != 0 && end < start);
                assert!(bad);
                assert_eq!(refusal, refuse(40, 0));
                continue;
            }
        };
        let mut n = start;
        let mut ran = false;
        for &[first, new] in &out[..count] {
            assert_eq!(first, n);
            if new == 0 {
                assert_eq!(list[n as usize - 1], 1);
                ran = false;
                n += 1;
            } else {
                assert!(new > first && !ran);
                assert!((first..new).all(|n| list[n as usize - 1] == 0));
                ran = true;
                n = new;
            }
        }
        let last = if end == 0 || end as usize > list.len() {
            list.len() as u32
        } else {
            end
        };
        assert_eq!(n, last + 1);
        if count > 0 {
            assert_eq!(
                plan(&list, start, end, &mut out[..count - 1]),
                Err(refuse(11, count))
            );
        }
    }
}

// ---- Plans that join (document 02, item 12) ----

/// The plan's numbers, for a good list, Start and End.
fn planned(list: &[u8], start: u32, end: u32) -> Vec<u32> {
    let mut pairs = vec![[0; A_PAIR]; list.len()];
    let count = plan(list, start, end, &mut pairs).unwrap();
    pairs[..count].concat()
}

/// What stands in the room of a join before it, and behind what it writes.
const UNTOUCHED: u32 = 0xA5A5_A5A5;

/// The join into so much room: what it wrote, all else left as it was.
fn joined_with(one: &[u32], other: &[u32], room: usize) -> Result<Vec<u32>, Refusal> {
    let mut out = vec![UNTOUCHED; room];
    let joined = join(one, other, &mut out);
    let written = A_PAIR * joined.unwrap_or(0);
    assert!(out[written..].iter().all(|&number| number == UNTOUCHED));
    out.truncate(written);
    joined.map(|_| out)
}

/// The join into enough room, and into just as much as it needs; with one number
/// less, or with none, it is refused with the pairs it needs.
fn joined(one: &[u32], other: &[u32]) -> Vec<u32> {
    let all = joined_with(one, other, one.len() + other.len() + 1).unwrap();
    assert_eq!(joined_with(one, other, all.len()).as_ref(), Ok(&all));
    let no_room = Err(refuse(wire::NO_ROOM, all.len() / A_PAIR));
    if !all.is_empty() {
        assert_eq!(joined_with(one, other, all.len() - 1), no_room);
        assert_eq!(joined_with(one, other, 0), no_room);
    }
    all
}

/// Lists up to this length are cut in every way.
const CUT_LISTS: u32 = 8;

/// The plan for s to m followed by the plan for m + 1 to e is the plan for s to e
/// exactly when m and m + 1 are not both session numbers; joined it always is. An
/// End of 0 or past the list stands for its last number.
fn cut_and_joined(list: &[u8], start: u32, middle: u32, end: u32) {
    let one = planned(list, start, middle);
    let other = planned(list, middle + 1, end);
    let whole = planned(list, start, end);
    let both_session = list[middle as usize - 1] == 0 && list[middle as usize] == 0;
    let appended = [&one[..], &other].concat();
    let cut = (list, start, middle, end);
    assert_eq!(appended == whole, !both_session, "{:?}", cut);
    assert_eq!(joined(&one, &other), whole, "{:?}", cut);
}

#[test]
fn plans_join() {
    for count in 0..=CUT_LISTS {
        for list in make::every_list(count) {
            for start in 1..=count {
                for middle in start..count {
                    let ends = (middle + 1..=count).chain([0, count + 1, LAST]);
                    for end in ends {
                        cut_and_joined(&list, start, middle, end);
                    }
                }
            }
        }
    }
}

#[test]
fn plans_join_at_random_cuts() {
    let mut rng = Rng::new(31);
    for _ in 0..20_000 {
        let list = make::good_list(&mut rng, 60);
        if list.len() >= make::LEAST_CUT {
            let cut = make::cut(&mut rng, list.len() as u32);
            cut_and_joined(&list, cut.start, cut.middle, cut.end);
        }
    }
}

/// A plan that is split at every number is joined again, from the front and from
/// the back.
#[test]
fn plans_join_in_many_parts() {
    let mut rng = Rng::new(32);
    for _ in 0..1_000 {
        let list = make::good_list(&mut rng, 40);
        let parts = (1..=list.len() as u32).map(|n| planned(&list, n, n));
        let from_front = parts
            .clone()
            .fold(Vec::new(), |one, part| joined(&one, &part));
        let from_back = parts
            .rev()
            .fold(Vec::new(), |other, part| joined(&part, &other));
        if list.is_empty() {
            assert!(from_front.is_empty() && from_back.is_empty());
        } else {
            assert_eq!(from_front, planned(&list, 1, 0));
            assert_eq!(from_back, planned(&list, 1, 0));
        }
    }
}

#[test]
fn join_touching() {
    assert_eq!(joined(&[1, 3], &[3, 5]), [1, 5]);
    assert_eq!(joined(&[1, 2], &[2, 3]), [1, 3]);
    assert_eq!(joined(&[7, 0, 8, 9], &[9, 12, 12, 0]), [7, 0, 8, 12, 12, 0]);
    // At the ends of the numbers. No plan has 0 as a first number, but nothing
    // more is asked of a gap fill than a New above its first.
    assert_eq!(joined(&[1, LAST - 1], &[LAST - 1, LAST]), [1, LAST]);
    assert_eq!(joined(&[0, 1], &[1, 2]), [0, 2]);
    // Only where the plans meet: pairs of the same plan stay as they are given,
    // and so does what the new gap fill touches in its turn.
    assert_eq!(
        joined(&[1, 2, 2, 3], &[5, 6, 6, 7]),
        [1, 2, 2, 3, 5, 6, 6, 7]
    );
    assert_eq!(joined(&[1, 2, 2, 3], &[3, 4, 4, 5]), [1, 2, 2, 4, 4, 5]);
}

#[test]
fn join_not_touching() {
    for (last, next) in [
        // A number between, and one in both.
        ([1, 3], [4, 6]),
        ([1, 3], [2, 6]),
        ([1, 3], [1, 3]),
        // Business numbers, also where their numbers and News are the same.
        ([1, 0], [2, 0]),
        ([1, 0], [2, 4]),
        ([1, 3], [3, 0]),
        ([2, 0], [2, 0]),
        ([3, 0], [0, 5]),
        ([3, 0], [0, 0]),
        ([0, 0], [0, 0]),
        ([0, 0], [0, 5]),
        ([LAST, 0], [0, LAST]),
        // What is no gap fill: New is not above the first.
        ([3, 3], [3, 5]),
        ([4, 3], [3, 5]),
        ([LAST, 3], [3, 5]),
        ([1, 3], [3, 3]),
        ([1, 3], [3, 2]),
        ([1, LAST], [LAST, 0]),
        ([1, LAST], [LAST, LAST]),
        ([3, 3], [3, 3]),
        // The other way round.
        ([3, 5], [1, 3]),
    ] {
        assert_eq!(joined(&last, &next), [last, next].concat());
        let one = [[9, 0], last].concat();
        let other = [next, [8, 0]].concat();
        assert_eq!(joined(&one, &other), [[9, 0], last, next, [8, 0]].concat());
    }
}

#[test]
fn join_empty() {
    assert_eq!(joined(&[], &[]), []);
    for plan in [&[1, 0][..], &[1, 3], &[0, 0], &[1, 2, 2, 0, 3, 7]] {
        assert_eq!(joined(plan, &[]), plan);
        assert_eq!(joined(&[], plan), plan);
    }
}

/// 40 by the counts of numbers alone, then 11. What is longer than any plan is
/// taken too.
#[test]
fn join_refusals() {
    let counts = [
        (0, true),
        (1, false),
        (2, true),
        (3, false),
        (4, true),
        (LONGEST_PLAN - 1, false),
        (LONGEST_PLAN, true),
        (LONGEST_PLAN + 1, false),
        (LONGEST_PLAN + 2, true),
        (2 * LONGEST_PLAN, true),
    ];
    for (one, is_one_good) in counts {
        for (other, is_other_good) in counts {
            let numbers = |count: usize| vec![1; count];
            for room in [0, one + other, one + other + 1] {
                let answer = joined_with(&numbers(one), &numbers(other), room);
                let needed = (one + other) / A_PAIR;
                if !(is_one_good && is_other_good) {
                    assert_eq!(answer, Err(refuse(BAD_PLAN, 0)));
                } else if room < one + other {
                    assert_eq!(answer, Err(refuse(wire::NO_ROOM, needed)));
                } else {
                    assert_eq!(answer, Ok(numbers(one + other)));
                }
            }
        }
    }
    // What is needed is what the join gives, not what is given to it.
    let no_room = Err(refuse(wire::NO_ROOM, 3));
    assert_eq!(joined_with(&[1, 0, 2, 3], &[3, 5, 5, 0], 5), no_room);
    let all = vec![1, 0, 2, 5, 5, 0];
    assert_eq!(joined_with(&[1, 0, 2, 3], &[3, 5, 5, 0], 6), Ok(all));
}

/// Plans of the longest list, cut near its ends and in its middle, and two plans
/// that are each as long as one may be.
#[test]
fn join_longest() {
    let count = LONGEST_LIST as u32;
    let all_business = vec![1; LONGEST_LIST];
    let all_session = vec![0; LONGEST_LIST];
    let in_turn: Vec<u8> = (0..LONGEST_LIST).map(|at| (at % 2) as u8).collect();
    for list in [all_business, all_session, in_turn] {
        for middle in [1, 2, count / 2, count / 2 + 1, count - 2, count - 1] {
            for end in [0, count, count + 1] {
                cut_and_joined(&list, 1, middle, end);
            }
        }
    }
    assert_eq!(planned(&vec![1; LONGEST_LIST], 1, 0).len(), LONGEST_PLAN);

    let business: Vec<u32> = (1..=count).flat_map(|n| [n, 0]).collect();
    assert_eq!(joined(&business, &business), business.repeat(2));
    let mut one = business.clone();
    let mut other = business;
    one[LONGEST_PLAN - 1] = count + 3;
    other[..A_PAIR].copy_from_slice(&[count + 3, count + 9]);
    let whole = joined(&one, &other);
    assert_eq!(whole.len(), 2 * LONGEST_PLAN - A_PAIR);
    assert_eq!(
        whole[LONGEST_PLAN - A_PAIR..LONGEST_PLAN],
        [count, count + 9]
    );
    assert_eq!(whole[..LONGEST_PLAN - A_PAIR], one[..LONGEST_PLAN - A_PAIR]);
    assert_eq!(whole[LONGEST_PLAN..], other[A_PAIR..]);
}

/// What the maker of plans makes: each pair stays, but for two that touch.
#[test]
fn join_made_plans() {
    let mut rng = Rng::new(33);
    let (mut touched, mut stayed, mut odd) = (0, 0, 0);
    for _ in 0..20_000 {
        let [one, other] = make::two_plans(&mut rng);
        let appended = [&one[..], &other].concat();
        if one.len() % A_PAIR != 0 || other.len() % A_PAIR != 0 {
            let answer = joined_with(&one, &other, appended.len());
            assert_eq!(answer, Err(refuse(BAD_PLAN, 0)));
            odd += 1;
            continue;
        }
        let all = joined(&one, &other);
        let touches = match (&one[..], &other[..]) {
            ([.., first, new], [next, last_new, ..]) => {
                new == next && first < new && next < last_new
            }
            _ => false,
        };
        let mut expected = appended;
        if touches {
            // The New of the first and the number of the second go.
            let at = one.len() - 1;
            expected.drain(at..at + A_PAIR);
            touched += 1;
        } else {
            stayed += 1;
        }
        assert_eq!(all, expected);
    }
    for count in [touched, stayed, odd] {
        assert!(count > 500, "{:?}", (touched, stayed, odd));
    }
}

// ---- Session ----

fn state(session: &Session) -> (Phase, u32, u32, u32) {
    (session.phase, session.e, session.o, session.m)
}

fn waiting(e: u32, o: u32) -> Session {
    let mut session = Session::saved(US, e, o - 1).unwrap();
    session.connect(b"pw").unwrap();
    assert_eq!(state(&session), (Phase::Waiting, e, o, 0));
    session
}

fn live(e: u32, o: u32) -> Session {
    Session {
        phase: Phase::Live,
        ..waiting(e, o)
    }
}

fn logon(n: u32, next_expected: u32) -> Vec<u8> {
    framed(5, n, &[2], &next_expected.to_le_bytes())
}

fn business(n: u32) -> Vec<u8> {
    framed(9, n, &[0, 2], &[0; 3])
}

fn gap_fill(n: u32, new: u32) -> Vec<u8> {
    framed(4, n, &[0, 1], &[&b"Y"[..], &new.to_le_bytes()].concat())
}

fn reset(n: u32, new: u32) -> Vec<u8> {
    framed(4, n, &[1], &new.to_le_bytes())
}

fn resend(n: u32, start: u32, end: u32) -> Vec<u8> {
    framed(
        2,
        n,
        &[0, 1],
        &[start.to_le_bytes(), end.to_le_bytes()].concat(),
    )
}

fn test_request(n: u32) -> Vec<u8> {
    test_request_of(n, 0x1234)
}

fn test_request_of(n: u32, id: u16) -> Vec<u8> {
    framed(1, n, &[0], &id.to_le_bytes())
}

fn row(sort: RowSort, first: u32, last: u32) -> Row {
    Row { sort, first, last }
}

fn stopped(code: u32, number: u32) -> Answer {
    Answer {
        code,
        sends: [Send::Logout { number }, Send::None],
        ..NOTHING
    }
}

fn only(code: u32) -> Answer {
    Answer { code, ..NOTHING }
}

/// A step that must be Stop(k).
fn stops(mut session: Session, bytes: &[u8], code: u32) {
    let before = session.clone();
    let answer = session.step(bytes);
    if before.o < LAST {
        assert_eq!(answer, stopped(code, before.o));
        assert_eq!(state(&session), (Phase::Down, before.e, before.o + 1, 0));
    } else {
        assert_eq!(answer, only(code));
        assert_eq!(state(&session), (Phase::Down, before.e, before.o, 0));
    }
    assert_eq!(session.repeats, 0);
    assert_eq!(session.step(bytes), only(20));
}

#[test]
fn session_states() {
    assert_eq!(state(&Session::fresh(US).unwrap()), (Phase::Down, 1, 1, 0));
    for bad in [&b""[..], b"ABCDEFGHIJKL", b"A\x1f", b"A\x80", b"\xff"] {
        assert_eq!(Session::fresh(bad), Err(refuse(6, 0)));
        assert_eq!(Session::saved(bad, 0, 5), Err(refuse(23, 0)));
        assert_eq!(Session::saved(bad, 5, 5), Err(refuse(6, 0)));
    }
    assert_eq!(Session::saved(US, 5, 0), Err(refuse(23, 0)));

    let mut session = Session::saved(US, 9, 5).unwrap();
    assert_eq!(session.step(&[]), only(20));
    let before = session.clone();
    for password in [&[b'x'; 450][..], b"\x7f", b"\x80", b"pw\xe9"] {
        assert_eq!(session.connect(password), Err(refuse(9, 0)));
        assert_eq!(session, before);
    }
    let sent = session.connect(b"pw").unwrap();
    assert_eq!((sent.number, sent.next_expected), (5, 9));
    assert_eq!(sent.bytes(US), writer::logon(5, US, b"pw", 9));
    assert_eq!(state(&session), (Phase::Waiting, 9, 6, 0));
    assert_eq!(session.connect(b"pw"), Err(refuse(21, 0)));
    session.drop();
    assert_eq!(state(&session), (Phase::Down, 9, 6, 0));

    let mut session = Session::saved(US, 9, LAST).unwrap();
    assert_eq!(session.connect(b"\0"), Err(refuse(22, 0)));
    let mut session = Session::saved(US, 9, LAST - 1).unwrap();
    assert!(session.connect(b"").is_ok());
    assert_eq!(session.o, LAST);
}

#[test]
fn session_reader_refusals() {
    let mut session = live(3, 4);
    session.m = 9;
    let good = business(3);
    let short = session.step(&good[..20]);
    assert_eq!((short.code, short.besides), (1, good.len() as u32));
    assert_eq!(short.sends, [Send::None; 2]);
    let mut sum = good;
    sum[30] ^= 1;
    let bad_sum = session.step(&sum);
    assert_eq!((bad_sum.code, bad_sum.besides), (4, sum.len() as u32));
    assert_eq!(state(&session), (Phase::Live, 3, 4, 9));
    let answer = session.step(&framed(2, 3, &[0, 1], &[0; 11]));
    assert_eq!(
        answer,
        Answer {
            besides: 3,
            ..stopped(10, 4)
        }
    );
    assert_eq!(state(&session), (Phase::Down, 3, 5, 0));
    stops(live(3, 4), &[7], 2);
    stops(live(3, 4), &[2, 0, 0], 3);
    stops(waiting(3, LAST), &framed(11, 1, &[], &[]), 5);
    stops(live(3, LAST), &framed(0, 0, &[], &[]), 6);
}

/// What a step returns besides: the reader's value for 1, 4, 7, 8, 9 and 10, and
/// 0 with all others.
#[test]
fn session_besides() {
    let good = business(3);
    let length = good.len() as u32;
    let mut foreign = good.clone();
    foreign[10] = b'X';
    make::reseal(&mut foreign);
    for (bytes, code, besides) in [
        (vec![], 1, 3),
        (good[..2].to_vec(), 1, 3),
        (good[..3].to_vec(), 1, length),
        (good[..good.len() - 1].to_vec(), 1, length),
        (vec![7], 2, 0),
        (vec![2, 57, 0], 3, 0),
        (bad_sum(good.clone()), 4, length),
        (framed(11, 3, &[], &[]), 5, 0),
        (framed(0, 0, &[], &[]), 6, 0),
        (framed(0, 3, &[40, 41], &[]), 7, 40),
        (framed(0, 3, &[255], &[]), 7, 255),
        (framed(2, 3, &[], &[]), 8, 0),
        (framed(2, 3, &[0], &[]), 8, 1),
        (framed(2, 3, &[0, 1], &[1; 3]), 9, 0),
        (framed(2, 3, &[0, 1], &[1; 7]), 9, 1),
        (framed(0, 3, &[], &[1]), 10, 1),
        (framed(0, 3, &[0], &[1; 9]), 10, 7),
        (foreign, 31, 0),
    ] {
        for session in [waiting(3, 4), live(3, 4)] {
            let answer = session.clone().step(&bytes);
            assert_eq!((answer.code, answer.besides), (code, besides));
            assert_eq!(plain::Session::of(&session).step(&bytes), answer);
            // Down does not look at the bytes.
            let mut down = session;
            down.drop();
            assert_eq!(down.step(&bytes), only(20));
        }
    }
    // Neither the session's own refusals nor good messages say anything besides.
    for bytes in [good, business(2), logon(3, 4), resend(3, 0, 0)] {
        assert_eq!(live(3, 4).step(&bytes).besides, 0);
    }
}

/// Document 02, item 8: the session no longer stops at accented text.
#[test]
fn session_accented_texts() {
    let taken = |sort| Answer {
        row: row(sort, 3, 3),
        ..NOTHING
    };
    let [reject, logon, _, business, text, reason] = free_texts(b"Caf\xE9 M\xFCller");
    for (mut session, arrived, answer) in [
        (
            waiting(3, 4),
            reject.message.clone(),
            taken(RowSort::Session),
        ),
        (waiting(3, 4), logon.message, taken(RowSort::Session)),
        (live(3, 4), reject.message, taken(RowSort::Session)),
        (live(3, 4), business.message, taken(RowSort::Business)),
        (live(3, 4), text.message, taken(RowSort::Business)),
        (live(3, 4), reason.message, taken(RowSort::Business)),
    ] {
        let mut fast = plain::Session::of(&session);
        assert_eq!(session.step(&arrived), answer);
        assert_eq!(fast.step(&arrived), answer);
        assert_eq!(session.e, 4);
    }
    // It does at 127, and at accented text in other fields.
    for free_text in free_texts(b"Caf\xE9\x7F") {
        let besides = free_text.position;
        let answer = live(3, 4).step(&free_text.message);
        assert_eq!(
            answer,
            Answer {
                besides,
                ..stopped(9, 4)
            }
        );
    }
    let logout = framed(6, 3, &[0], &variable(b"\xE9"));
    stops(live(3, 4), &logout, 9);
}

/// A buffer as it was before a call, longer than every message to send.
const UNWRITTEN: [u8; 600] = [0xA5; 600];

/// What a call wrote at the front of a buffer with so much room. It must leave
/// alone what stands behind, and on a refusal all.
fn put_with(
    room: usize,
    put: impl FnOnce(&mut [u8]) -> Result<usize, Refusal>,
) -> Result<Vec<u8>, Refusal> {
    let mut buffer = UNWRITTEN;
    let answer = put(&mut buffer[..room]);
    let length = answer.unwrap_or(0);
    assert_eq!(buffer[length..], UNWRITTEN[length..]);
    answer.map(|length| buffer[..length].to_vec())
}

/// The same with room for every message to send.
fn put(put: impl FnOnce(&mut [u8]) -> Result<usize, Refusal>) -> Result<Vec<u8>, Refusal> {
    put_with(UNWRITTEN.len(), put)
}

#[test]
fn putting_a_logon() {
    // Connect's Logon, from the session alone.
    for (e, o) in [(1, 1), (9, 5), (LAST, 1), (LAST, LAST - 1)] {
        let mut session = Session::saved(US, e, o).unwrap();
        let sent = session.connect(b"secret").unwrap();
        let bytes = put(|out| session.put_logon(b"secret", out)).unwrap();
        assert_eq!(Ok(bytes.clone()), sent.bytes(US));
        let head = reader::read(&bytes).unwrap();
        assert_eq!((head.message_type, head.number), (5, o));
        assert_eq!((head.poss_dup, head.poss_resend), (0, 0));
        assert_eq!(reader::comp_id(&bytes), US);
        assert_eq!(reader::map(&bytes), map_of(&[0, 2]));
        assert_eq!(reader::ask_text(&bytes, 0), Ok(&b"secret"[..]));
        let next_expected = reader::ask_number(&bytes, 2);
        assert_eq!(next_expected, Ok(Value::Number(u64::from(e))));
    }

    // 91 comes first, then the password's 9, then 11.
    let not_a_send = Err(refuse(NOT_A_SEND, 0));
    let mut dropped = waiting(3, 4);
    dropped.drop();
    for session in [Session::fresh(US).unwrap(), dropped, live(3, 4)] {
        for password in [&b"secret"[..], b"\x80"] {
            for room in [0, 512] {
                let answer = put_with(room, |out| session.put_logon(password, out));
                assert_eq!(answer, not_a_send);
            }
        }
    }
    let session = waiting(3, 4);
    for password in [&b"\x80"[..], b"\x1F", b"\0", &[b'x'; 450]] {
        for room in [0, 512] {
            let answer = put_with(room, |out| session.put_logon(password, out));
            assert_eq!(answer, Err(refuse(9, 0)));
        }
    }
    for password in [&b""[..], b" ~", &[b'x'; 449]] {
        for room in [0, 511] {
            let answer = put_with(room, |out| session.put_logon(password, out));
            assert_eq!(answer, Err(refuse(11, 512)));
        }
        let answer = put_with(512, |out| session.put_logon(password, out));
        assert_eq!(answer, writer::logon(3, US, password, 3));
    }
    // After a Stop there is none to send, and after another Connect there is.
    let mut session = waiting(3, 4);
    session.step(&[7]);
    assert_eq!(put(|out| session.put_logon(b"", out)), not_a_send);
    session.connect(b"").unwrap();
    let again = put(|out| session.put_logon(b"", out));
    assert_eq!(again, writer::logon(5, US, b"", 3));
}

/// Each bound of what a session gives to send, from both sides.
#[test]
fn putting_what_a_session_gives() {
    let session = live(3, 4);
    let taken = |send: [u32; A_SEND]| {
        let answer = put(|out| session.put(send, out));
        if let Err(refusal) = answer {
            assert_eq!(refusal, refuse(NOT_A_SEND, 0), "{:?}", send);
        }
        answer.is_ok()
    };
    // No message.
    assert!(taken([0, 0, 0, 0]));
    for send in [
        [0, 1, 0, 0],
        [0, 0, 1, 0],
        [0, 0, 0, 1],
        [0, LAST, LAST, LAST],
    ] {
        assert!(!taken(send));
    }
    // Our own numbers.
    for (kind, first) in [(1, 0), (2, 0), (4, 1), (6, 0)] {
        for (number, good) in [
            (0, false),
            (1, false),
            (2, true),
            (3, true),
            (LAST - 1, true),
            (LAST, false),
        ] {
            assert_eq!(taken([kind, number, first, 0]), good);
        }
    }
    // A Heartbeat's ID has two bytes.
    for (id, good) in [
        (0, true),
        (65_535, true),
        (65_536, false),
        (0x1_0001, false),
        (LAST, false),
    ] {
        assert_eq!(taken([1, 2, id, 0]), good);
    }
    // A Logout has no value.
    assert!(!taken([2, 2, 1, 0]));
    // A gap fill: the first number covered, and New above it.
    for (first, new, good) in [
        (0, 0, false),
        (0, 1, false),
        (1, 0, false),
        (1, 1, false),
        (1, 2, true),
        (1, LAST, true),
        (7, 6, false),
        (7, 7, false),
        (7, 8, true),
        (LAST - 1, LAST - 1, false),
        (LAST - 1, LAST, true),
        (LAST, LAST - 1, false),
        (LAST, LAST, false),
    ] {
        assert_eq!(taken([3, first, new, 0]), good);
    }
    // A Resend Request's Start.
    for (start, good) in [
        (0, false),
        (1, true),
        (2, true),
        (LAST - 1, true),
        (LAST, false),
    ] {
        assert_eq!(taken([4, 2, start, 0]), good);
    }
    // A Test Request's ID is its number modulo 65,536.
    for (number, id, good) in [
        (0, 0, false),
        (1, 1, false),
        (2, 1, false),
        (2, 2, true),
        (2, 3, false),
        (2, 65_538, false),
        (65_535, 65_535, true),
        (65_536, 0, true),
        (65_536, 65_536, false),
        (65_537, 1, true),
        (65_537, 65_537, false),
        (LAST - 1, 65_534, true),
        (LAST - 1, LAST - 1, false),
        (LAST, 65_535, false),
    ] {
        assert_eq!(taken([5, number, id, 0]), good);
    }
    // A Heartbeat without ID has none.
    assert!(!taken([6, 2, 1, 0]));
    assert!(!taken([6, 2, 2, 0]));
    // No kind has a second value, and there are no more kinds.
    for good in [
        [1, 2, 0, 0],
        [2, 2, 0, 0],
        [3, 1, 2, 0],
        [4, 2, 1, 0],
        [5, 2, 2, 0],
        [6, 2, 0, 0],
    ] {
        assert!(taken(good));
        for second in [1, 2, LAST] {
            assert!(!taken([good[0], good[1], good[2], second]));
        }
    }
    for kind in [LAST_KIND + 1, 8, 257, LAST] {
        for rest in [[0, 0, 0], [2, 1, 0], [2, 2, 0], [1, 2, 0]] {
            assert!(!taken([kind, rest[0], rest[1], rest[2]]));
        }
    }
}

/// The bytes are the same whatever state the session is in; 91 comes before 11.
#[test]
fn putting_as_bytes() {
    let down = Session::saved(US, 3, 4).unwrap();
    for session in [down, waiting(3, 4), live(3, 4)] {
        for (send, bytes) in [
            ([0, 0, 0, 0], Ok(vec![])),
            ([1, 7, 0x1234, 0], writer::heartbeat_for(7, US, 0x1234)),
            ([2, 7, 0, 0], writer::logout(7, US)),
            ([3, 5, 9, 0], writer::gap_fill(5, US, 9)),
            ([4, 7, 3, 0], writer::resend_request(7, US, 3, 0)),
            ([5, 7, 7, 0], writer::test_request(7, US, 7)),
            ([5, 65_543, 7, 0], writer::test_request(65_543, US, 7)),
            ([6, 7, 0, 0], writer::heartbeat(7, US)),
        ] {
            let length = bytes.as_ref().unwrap().len();
            assert_eq!(put_with(length, |out| session.put(send, out)), bytes);
            assert_eq!(put(|out| session.put(send, out)), bytes);
            for room in [0, length.saturating_sub(1)] {
                if room < length {
                    let answer = put_with(room, |out| session.put(send, out));
                    assert_eq!(answer, Err(refuse(11, length)));
                }
            }
            let mut bad = send;
            bad[3] = 1;
            let answer = put_with(0, |out| session.put(bad, out));
            assert_eq!(answer, Err(refuse(NOT_A_SEND, 0)));
        }
    }
}

/// A step or a tick that gives this message, if there is one: a session that is up,
/// and what arrives or how long nothing does. The numbers are taken as they are
/// wherever a session can have them.
fn giving(send: Send) -> Option<[Send; 2]> {
    let up = |phase, e, o| {
        let good = e >= 1 && o >= 2;
        good.then(|| Session {
            phase,
            ..Session::saved(US, e, o).unwrap()
        })
    };
    let live = |e, o| up(Phase::Live, e, o);
    let ticked = |o, seconds: u64| {
        let mut line = over(live(1, o)?, 1, 0);
        Some([line.tick(1_000 * seconds).send, Send::None])
    };
    let answer = match send {
        Send::None => live(1, 2)?.step(&business(1)),
        Send::Heartbeat { number, id } => live(1, number)?.step(&test_request_of(1, id)),
        Send::Logout { number } => live(1, number)?.step(&[7]),
        Send::GapFill { first, new } => up(Phase::Waiting, 1, new)?.step(&logon(1, first)),
        Send::ResendRequest { number, start, .. } => {
            live(start, number)?.step(&business(start.checked_add(1)?))
        }
        Send::TestRequest { number, .. } => return ticked(number, 2),
        Send::BareHeartbeat { number } => return ticked(number, 1),
    };
    Some(answer.sends)
}

/// Exactly what a step or a tick gives is taken: of all edges each that is taken is
/// given by one, and each message that is refused is given by none.
#[test]
fn putting_exactly_what_calls_give() {
    let edges = [0, 1, 2, 3, 65_534, 65_535, 65_536, LAST - 2, LAST - 1, LAST];
    let mut taken = 0;
    for kind in 0..=LAST_KIND {
        for number in edges {
            for first in edges {
                for second in [0, 1, LAST] {
                    let numbers = [kind, number, first, second];
                    let unchecked = match kind {
                        0 => Send::None,
                        1 => Send::Heartbeat {
                            number,
                            id: first as u16,
                        },
                        2 => Send::Logout { number },
                        3 => Send::GapFill {
                            first: number,
                            new: first,
                        },
                        4 => Send::ResendRequest {
                            number,
                            start: first,
                            end: second,
                        },
                        5 => Send::TestRequest {
                            number,
                            id: first as u16,
                        },
                        _ => Send::BareHeartbeat { number },
                    };
                    let given = giving(unchecked).map(|sends| sends.contains(&unchecked));
                    // The struct must say all that the message says, and no more.
                    let is_whole = unchecked.numbers().unwrap_or_default() == numbers;
                    let is_given = given == Some(true) && is_whole;
                    assert_eq!(Send::of_numbers(numbers).is_some(), is_given);
                    taken += u32::from(is_given);
                }
            }
        }
    }
    assert!(taken > 70, "{}", taken);
}

#[test]
fn session_waiting() {
    // 1 before 2.
    let mut other = logon(0, 0);
    other[10] = b'X';
    make::reseal(&mut other);
    stops(waiting(3, 4), &other, 6); // number 0
    let mut other = logon(3, 4);
    other[10] = b'X';
    make::reseal(&mut other);
    stops(waiting(3, 4), &other, 31);
    let mut longer = logon(3, 4);
    longer[20] = b'X';
    make::reseal(&mut longer);
    stops(waiting(3, 4), &longer, 31);

    // Logout and Reject.
    for bytes in [framed(6, 3, &[], &[]), framed(3, 3, &[0, 4], &[0; 6])] {
        let mut session = waiting(3, 4);
        assert_eq!(
            session.step(&bytes),
            Answer {
                row: row(RowSort::Session, 3, 3),
                ..NOTHING
            }
        );
        assert_eq!(state(&session), (Phase::Down, 4, 4, 0));
        for e in [2, 4] {
            let mut session = waiting(e, 4);
            assert_eq!(session.step(&bytes), NOTHING);
            assert_eq!(state(&session), (Phase::Down, e, 4, 0));
        }
    }
    let mut session = waiting(LAST, 4);
    assert_eq!(session.step(&framed(6, LAST, &[], &[])), NOTHING);
    assert_eq!(state(&session), (Phase::Down, LAST, 4, 0));

    // Logon.
    stops(waiting(3, 4), &logon(2, 0), 30);
    stops(waiting(3, 4), &logon(3, 0), 35);
    stops(waiting(3, 4), &logon(4, 5), 35);
    stops(waiting(LAST, 4), &logon(LAST, 5), 35);
    stops(waiting(LAST, 4), &logon(LAST, 4), 36);
    let mut session = waiting(3, 4);
    assert_eq!(
        session.step(&logon(3, 4)),
        Answer {
            row: row(RowSort::Session, 3, 3),
            ..NOTHING
        }
    );
    assert_eq!(state(&session), (Phase::Live, 4, 4, 0));
    let mut session = waiting(3, LAST);
    assert_eq!(
        session.step(&logon(LAST, 2)),
        Answer {
            sends: [
                Send::GapFill {
                    first: 2,
                    new: LAST
                },
                Send::None
            ],
            ..NOTHING
        }
    );
    assert_eq!(state(&session), (Phase::Live, 3, LAST, 0));
    for message_type in [0, 1, 2, 4, 7, 8, 9, 10] {
        let mut rng = Rng::new(u64::from(message_type));
        stops(
            waiting(3, 4),
            &make::message(&mut rng, message_type, 3, US),
            32,
        );
    }
}

#[test]
fn session_live_types_and_resets() {
    for message_type in [5, 7, 8] {
        let mut rng = Rng::new(u64::from(message_type));
        stops(
            live(3, 4),
            &make::message(&mut rng, message_type, 3, US),
            32,
        );
    }
    // 4: n is ignored, also a lower one and the last one.
    for n in [1, 3, 9, LAST] {
        stops(live(3, 4), &reset(n, 2), 33);
        stops(live(3, 4), &reset(n, 0), 33);
        let mut session = live(3, 4);
        session.m = 5;
        assert_eq!(session.step(&reset(n, 3)), NOTHING);
        assert_eq!(state(&session), (Phase::Live, 3, 4, 5));
        let answer = session.step(&reset(n, 5));
        assert_eq!(answer.row, row(RowSort::Reset, 3, 4));
        assert_eq!(state(&session), (Phase::Live, 5, 4, 5));
        let with_n = framed(4, n, &[0, 1], &[b'N', 6, 0, 0, 0]);
        assert_eq!(session.step(&with_n).row, row(RowSort::Reset, 5, 5));
        assert_eq!(state(&session), (Phase::Live, 6, 4, 0));
    }
    let mut session = live(LAST, 4);
    assert_eq!(session.step(&reset(LAST, LAST)), NOTHING);
    let mut session = live(3, 4);
    assert_eq!(
        session.step(&reset(3, LAST)).row,
        row(RowSort::Reset, 3, LAST - 1)
    );
}

#[test]
fn session_live_logout() {
    for (e, o, n, taken) in [
        (3, 4, 3, true),
        (3, 4, 2, false),
        (3, 4, 4, false),
        (LAST, 4, LAST, false),
        (3, LAST, 3, true),
    ] {
        let mut session = live(e, o);
        let answer = session.step(&framed(6, n, &[], &[]));
        let logout = if o < LAST {
            Send::Logout { number: o }
        } else {
            Send::None
        };
        assert_eq!(answer.code, 0);
        assert_eq!(answer.sends, [logout, Send::None]);
        assert_eq!(
            answer.row,
            if taken {
                row(RowSort::Session, e, e)
            } else {
                NO_ROW
            }
        );
        let o = if o < LAST { o + 1 } else { o };
        assert_eq!(state(&session), (Phase::Down, e + taken as u32, o, 0));
    }
}

#[test]
fn session_live_behind_and_ahead() {
    // 6.
    stops(live(3, 4), &business(2), 30);
    let mut session = live(3, 4);
    assert_eq!(session.step(&again(business(2))), NOTHING);
    assert_eq!(state(&session), (Phase::Live, 3, 4, 0));

    // 7: with PossDup 0, asked once, then anew after M is passed.
    assert_eq!(session.step(&business(5)), asks(4, 3));
    assert_eq!(state(&session), (Phase::Live, 3, 5, 5));
    assert_eq!(session.step(&business(6)), NOTHING);
    assert_eq!(session.step(&gap_fill(9, 2)), NOTHING);
    assert_eq!(session.step(&gap_fill(3, 5)).row.last, 4);
    assert_eq!(state(&session), (Phase::Live, 5, 5, 5));
    assert_eq!(session.step(&business(7)), NOTHING);
    assert_eq!(session.step(&business(5)).row.first, 5);
    assert_eq!(state(&session), (Phase::Live, 6, 5, 0));
    assert_eq!(session.step(&test_request(8)), asks(5, 6));
    assert_eq!(session.m, 8);

    // A Resend Request ahead is answered first.
    let mut session = live(3, 9);
    let answer = session.step(&resend(5, 2, 4));
    assert_eq!(answer.sends[0], Send::GapFill { first: 2, new: 5 });
    assert_eq!(answer.sends[1], request(9, 3));
    assert_eq!(state(&session), (Phase::Live, 3, 10, 5));
    let answer = session.step(&resend(6, 2, 0));
    assert_eq!(answer.sends[0], Send::GapFill { first: 2, new: 10 });
    assert_eq!(answer.sends[1], Send::None);
    stops(live(3, 9), &resend(5, 9, 0), 34);

    // 22, but Stop(34) comes first, and a gap fill needs no number.
    let mut session = live(3, LAST);
    assert_eq!(session.step(&resend(5, 2, 0)), only(22));
    assert_eq!(state(&session), (Phase::Down, 3, LAST, 0));
    stops(live(3, LAST), &resend(5, 0, 0), 34);
    let mut session = live(3, LAST);
    session.m = 7;
    let answer = session.step(&resend(5, 2, 0));
    assert_eq!(
        answer.sends,
        [
            Send::GapFill {
                first: 2,
                new: LAST
            },
            Send::None
        ]
    );
    assert_eq!(state(&session), (Phase::Live, 3, LAST, 7));
}

// ---- A hole in the answer (document 02, item 3) ----

/// A Live session that has asked for what is missing, and again so often.
fn with_hole(e: u32, o: u32, m: u32, repeats: u32) -> Session {
    Session {
        m,
        repeats,
        ..live(e, o)
    }
}

/// E, O, M and the count of a session that is Live.
fn numbers(session: &Session) -> (u32, u32, u32, u32) {
    assert_eq!(session.phase, Phase::Live);
    (session.e, session.o, session.m, session.repeats)
}

/// The message with PossDup 1: sent again.
fn again(mut bytes: Vec<u8>) -> Vec<u8> {
    bytes[8] = 1;
    make::reseal(&mut bytes);
    bytes
}

/// A Resend Request of ours from E to 0, which means all.
fn request(number: u32, start: u32) -> Send {
    Send::ResendRequest {
        number,
        start,
        end: 0,
    }
}

/// What a step gives that asks and does nothing else.
fn asks(number: u32, start: u32) -> Answer {
    Answer {
        sends: [request(number, start), Send::None],
        ..NOTHING
    }
}

/// The plain side's session is the twin's, the Comp ID aside.
fn is_same(fast: &plain::Session, session: &Session) {
    assert_eq!((fast.phase, fast.e, fast.o, fast.m), state(session));
    assert_eq!(fast.repeats, session.repeats);
}

/// The plain side must do the same in every test of this part.
fn stepped(session: &mut Session, bytes: &[u8]) -> Answer {
    let mut fast = plain::Session::of(session);
    let answer = session.step(bytes);
    assert_eq!(fast.step(bytes), answer);
    is_same(&fast, session);
    answer
}

/// The customer's day: the first message of the resend is spoiled. The copies
/// behind it ask again, M staying; two are asked, and the third stops the session.
#[test]
fn hole_spoiled_first_copy() {
    let mut session = live(3, 4);
    assert_eq!(stepped(&mut session, &business(7)), asks(4, 3));
    assert_eq!(numbers(&session), (3, 5, 7, 0));
    let spoiled = bad_sum(again(business(3)));
    let dropped = stepped(&mut session, &spoiled);
    assert_eq!((dropped.code, dropped.sends), (4, [Send::None; 2]));
    assert_eq!(numbers(&session), (3, 5, 7, 0));
    assert_eq!(stepped(&mut session, &again(business(4))), asks(5, 3));
    assert_eq!(numbers(&session), (3, 6, 7, 1));
    assert_eq!(stepped(&mut session, &again(business(5))), asks(6, 3));
    assert_eq!(numbers(&session), (3, 7, 7, 2));
    // A spoiled copy does not touch the count either.
    assert_eq!(stepped(&mut session, &spoiled).code, 4);
    assert_eq!(numbers(&session), (3, 7, 7, 2));
    assert_eq!(stepped(&mut session, &again(business(6))), stopped(37, 7));
    assert_eq!(state(&session), (Phase::Down, 3, 8, 0));
    assert_eq!(session.repeats, 0);

    // The same day, but the second answer is whole: it is taken, and nothing more
    // is asked.
    let mut session = with_hole(3, 5, 5, 0);
    assert_eq!(stepped(&mut session, &again(business(4))), asks(5, 3));
    for n in 3..=5 {
        let answer = stepped(&mut session, &again(business(n)));
        assert_eq!(answer.row, row(RowSort::Business, n, n));
        assert_eq!(answer.sends, [Send::None; 2]);
    }
    assert_eq!(numbers(&session), (6, 6, 0, 0));
}

/// The first request is asked by rule 7 as it was, whatever PossDup is, and counts
/// for no repeat.
#[test]
fn hole_first_request_is_no_repeat() {
    for bytes in [business(7), again(business(7))] {
        let mut session = live(3, 4);
        assert_eq!(stepped(&mut session, &bytes), asks(4, 3));
        assert_eq!(numbers(&session), (3, 5, 7, 0));
    }
}

/// Every type that rule 7 meets asks again, below M, at it and above it. None is
/// taken: a Test Request is not answered, and a gap fill's New is not looked at.
#[test]
fn hole_every_type_asks_again() {
    for n in [4, 6, 7, 8, 1_000, LAST] {
        for bytes in [
            framed(0, n, &[], &[]),
            test_request(n),
            framed(3, n, &[0, 4], &[0; 6]),
            gap_fill(n, 0),
            gap_fill(n, LAST),
            business(n),
            framed(10, n, &required_body().0, &required_body().1),
        ] {
            let bytes = again(bytes);
            let mut session = with_hole(3, 9, 7, 0);
            assert_eq!(stepped(&mut session, &bytes), asks(9, 3));
            assert_eq!(numbers(&session), (3, 10, 7, 1));
            assert_eq!(stepped(&mut session, &bytes), asks(10, 3));
            assert_eq!(numbers(&session), (3, 11, 7, 2));
            stops(session, &bytes, 37);
        }
    }
}

/// PossDup 0 asks nothing while M stands, and leaves the count, with our numbers
/// used up as well.
#[test]
fn hole_not_sent_again() {
    for repeats in 0..=MOST_REPEATS {
        for o in [9, LAST] {
            for n in [4, 7, 8, LAST] {
                for bytes in [business(n), test_request(n), gap_fill(n, 0)] {
                    let mut session = with_hole(3, o, 7, repeats);
                    assert_eq!(stepped(&mut session, &bytes), NOTHING);
                    assert_eq!(numbers(&session), (3, o, 7, repeats));
                }
                // The gateway's own request is answered all the same.
                let mut session = with_hole(3, o, 7, repeats);
                let answer = stepped(&mut session, &resend(n, 2, 4));
                let fill = Send::GapFill { first: 2, new: 5 };
                assert_eq!(answer.sends, [fill, Send::None]);
                assert_eq!(numbers(&session), (3, o, 7, repeats));
                stops(with_hole(3, o, 7, repeats), &resend(n, 0, 0), 34);
            }
        }
    }
    // PossResend is another flag.
    let mut bytes = business(5);
    bytes[9] = 1;
    make::reseal(&mut bytes);
    let mut session = with_hole(3, 9, 7, 0);
    assert_eq!(stepped(&mut session, &bytes), NOTHING);
}

/// A Resend Request from the gateway ahead of E: its gap fill, then the repeat. The
/// gap fill goes to the O that was, since the repeat takes its number afterwards.
#[test]
fn hole_gap_fill_and_repeat() {
    for (end, new) in [(0, 9), (4, 5), (8, 9), (LAST, 9)] {
        let mut session = with_hole(3, 9, 7, 0);
        let answer = stepped(&mut session, &again(resend(5, 2, end)));
        let fill = Send::GapFill { first: 2, new };
        assert_eq!(
            answer,
            Answer {
                sends: [fill, request(9, 3)],
                ..NOTHING
            }
        );
        assert_eq!(numbers(&session), (3, 10, 7, 1));
    }
    let mut session = with_hole(3, 10, 7, 1);
    let answer = stepped(&mut session, &again(resend(9, 9, 0)));
    let fill = Send::GapFill { first: 9, new: 10 };
    assert_eq!(answer.sends, [fill, request(10, 3)]);
    assert_eq!(numbers(&session), (3, 11, 7, 2));
}

/// 34, then 37, then 22. On 37 the gap fill is not sent, and on 22 nothing is.
#[test]
fn hole_order_of_refusals() {
    let good = again(resend(5, 2, 0));
    let bad = [
        again(resend(5, 0, 0)),
        again(resend(5, LAST, 0)),
        again(resend(5, 3, 2)),
    ];
    for o in [9, LAST - 1, LAST] {
        for repeats in 0..=MOST_REPEATS {
            for bytes in &bad {
                stops(with_hole(3, o, 7, repeats), bytes, 34);
            }
        }
        // Stop's Logout alone; with our last number used, not even that.
        for bytes in [&good, &again(business(5))] {
            stops(with_hole(3, o, 7, 2), bytes, 37);
        }
    }
    for repeats in [0, 1] {
        for bytes in [&good, &again(business(5)), &again(test_request(5))] {
            let mut session = with_hole(3, LAST, 7, repeats);
            assert_eq!(stepped(&mut session, bytes), only(22));
            assert_eq!(state(&session), (Phase::Down, 3, LAST, 0));
            assert_eq!(session.repeats, 0);
        }
    }
    // The last number that we send under.
    let mut session = with_hole(3, LAST - 1, 7, 1);
    assert_eq!(
        stepped(&mut session, &again(business(5))),
        asks(LAST - 1, 3)
    );
    assert_eq!(numbers(&session), (3, LAST, 7, 2));
    assert_eq!(stepped(&mut session, &again(business(5))), only(37));
    assert_eq!(state(&session), (Phase::Down, 3, LAST, 0));
    // A count of 2 is not looked at by a message that rule 7 does not meet.
    stops(with_hole(3, 9, 7, 2), &again(logon(5, 9)), 32);
    stops(with_hole(3, 9, 7, 2), &again(reset(5, 2)), 33);
    stops(with_hole(3, 9, 7, 2), &business(2), 30);
    stops(with_hole(3, 9, 7, 2), &again(framed(6, 5, &[], &[])), 0);
}

/// The count is cleared by every row, whether M stays or goes, and the two repeats
/// start afresh.
#[test]
fn hole_count_cleared_when_e_moves() {
    for (bytes, e) in [
        (business(3), 4),
        (framed(0, 3, &[], &[]), 4),
        (framed(3, 3, &[0, 4], &[0; 6]), 4),
        (resend(3, 1, 0), 4),
        (gap_fill(3, 6), 6),
        (gap_fill(3, 7), 7),
        (reset(1, 5), 5),
        (reset(LAST, 7), 7),
    ] {
        for bytes in [again(bytes.clone()), bytes] {
            let mut session = with_hole(3, 9, 7, 2);
            assert_eq!(stepped(&mut session, &bytes).code, 0);
            assert_eq!(numbers(&session), (e, 9, 7, 0));
            assert_eq!(stepped(&mut session, &again(business(9))), asks(9, e));
            assert_eq!(stepped(&mut session, &again(business(8))), asks(10, e));
            assert_eq!(numbers(&session), (e, 11, 7, 2));
            stops(session, &again(business(9)), 37);
        }
    }
    // A Test Request at E takes a number for its Heartbeat.
    let mut session = with_hole(3, 9, 7, 1);
    stepped(&mut session, &test_request(3));
    assert_eq!(numbers(&session), (4, 10, 7, 0));

    // M goes as well: the next message ahead asks by rule 7 as it was.
    for bytes in [
        gap_fill(3, 8),
        gap_fill(3, LAST),
        reset(3, 8),
        reset(3, LAST),
    ] {
        let mut session = with_hole(3, 9, 7, 2);
        stepped(&mut session, &bytes);
        assert_eq!((session.m, session.repeats), (0, 0));
    }
    let mut session = with_hole(7, 9, 7, 2);
    stepped(&mut session, &business(7));
    assert_eq!(numbers(&session), (8, 9, 0, 0));
    assert_eq!(stepped(&mut session, &business(10)), asks(9, 8));
    assert_eq!(numbers(&session), (8, 10, 10, 0));
    assert_eq!(stepped(&mut session, &again(business(10))), asks(10, 8));
    assert_eq!(numbers(&session), (8, 11, 10, 1));
}

/// What leaves E leaves the count: a reset to E, a lower number with PossDup 1, and
/// what the reader refuses with 1 or 4.
#[test]
fn hole_count_kept() {
    for repeats in 0..=MOST_REPEATS {
        for bytes in [
            reset(1, 3),
            reset(5, 3),
            again(reset(5, 3)),
            again(framed(4, 5, &[0, 1], &[b'N', 3, 0, 0, 0])),
            again(business(2)),
            again(test_request(1)),
            again(gap_fill(2, 9)),
        ] {
            let mut session = with_hole(3, 9, 7, repeats);
            assert_eq!(stepped(&mut session, &bytes), NOTHING);
            assert_eq!(numbers(&session), (3, 9, 7, repeats));
        }
        let whole = again(business(5));
        for bytes in [bad_sum(whole.clone()), whole[..40].to_vec(), Vec::new()] {
            let mut session = with_hole(3, 9, 7, repeats);
            let answer = stepped(&mut session, &bytes);
            assert!(answer.code == 4 || answer.code == 1);
            assert_eq!(numbers(&session), (3, 9, 7, repeats));
        }
    }
}

/// 0 on a fresh and on a saved day, after a drop, a Logout and a Stop, and after
/// Connect; a refused Connect leaves it.
#[test]
fn hole_count_of_a_day() {
    assert_eq!(Session::fresh(US).unwrap().repeats, 0);
    assert_eq!(Session::saved(US, 3, 9).unwrap().repeats, 0);
    for repeats in 0..=MOST_REPEATS {
        let mut session = with_hole(3, 9, 7, repeats);
        for password in [&b"pw"[..], b"\x7f"] {
            let mut fast = plain::Session::of(&session);
            assert_eq!(session.connect(password), Err(refuse(21, 0)));
            assert_eq!(session, with_hole(3, 9, 7, repeats));
            assert_eq!(fast.connect(password), Err(refuse(21, 0)));
            assert_eq!((fast.m, fast.repeats), (7, repeats));
        }
        session.drop();
        assert_eq!(session, Session::saved(US, 3, 9).unwrap());
        session.connect(b"pw").unwrap();
        assert_eq!((session.m, session.repeats), (0, 0));

        // Redialled: the gateway's Logon ahead of E asks nothing, the next message
        // asks by rule 7 as it was, and the two repeats start afresh.
        assert_eq!(stepped(&mut session, &logon(8, 10)), NOTHING);
        assert_eq!(stepped(&mut session, &business(9)), asks(10, 3));
        assert_eq!(stepped(&mut session, &again(business(4))), asks(11, 3));
        assert_eq!(stepped(&mut session, &again(business(5))), asks(12, 3));
        assert_eq!(numbers(&session), (3, 13, 9, 2));
        assert_eq!(stepped(&mut session, &again(business(6))), stopped(37, 13));
        assert_eq!(session, Session::saved(US, 3, 14).unwrap());

        let mut session = with_hole(3, 9, 7, repeats);
        stepped(&mut session, &framed(6, 3, &[], &[]));
        assert_eq!(session, Session::saved(US, 4, 10).unwrap());
        let mut session = with_hole(3, 9, 7, repeats);
        stepped(&mut session, &business(2));
        assert_eq!(session, Session::saved(US, 3, 10).unwrap());
    }
}

/// The ends of the gateway's numbers: E below the last one may be asked for again,
/// and nothing lies ahead of the last one.
#[test]
fn hole_at_the_last_numbers() {
    let mut session = with_hole(LAST - 1, 9, LAST, 1);
    let last = again(business(LAST));
    assert_eq!(stepped(&mut session, &last), asks(9, LAST - 1));
    stops(session, &last, 37);
    stops(with_hole(LAST, 9, LAST, 0), &last, 36);
    let mut session = with_hole(LAST - 1, 9, LAST, 2);
    stepped(&mut session, &business(LAST - 1));
    assert_eq!(numbers(&session), (LAST, 9, LAST, 0));
    stops(session, &last, 36);
}

/// However long copies ahead of E come: while E does not move, the session is Down
/// at the third.
#[test]
fn hole_ends_in_finitely_many() {
    let mut rng = Rng::new(12);
    for _ in 0..2_000 {
        let o = LAST - rng.below(8) as u32;
        let mut session = with_hole(3, o, 7, rng.below(3) as u32);
        let left = MOST_REPEATS - session.repeats;
        let mut asked = 0;
        while session.phase == Phase::Live {
            let n = 4 + rng.below(9) as u32;
            let free = [
                types::HEARTBEAT,
                types::REJECT,
                types::BUSINESS_MESSAGE_REJECT,
            ];
            let what = Sent::Of(free[rng.index(free.len())]);
            let bytes = make::sent(&mut rng, US, n, 1, what);
            let answer = stepped(&mut session, &bytes);
            assert_eq!(session.e, 3);
            if session.phase == Phase::Live {
                assert_eq!(answer.sends[0], request(session.o - 1, 3));
                asked += 1;
            } else {
                let spent = LAST - o < left;
                assert_eq!(answer.code, if spent { 22 } else { 37 });
            }
        }
        assert_eq!(asked, left.min(LAST - o));
    }
}

/// In one call with many messages, into lists with room for all and with less.
#[test]
fn hole_many() {
    let messages = [
        business(5),
        bad_sum(again(business(3))),
        again(resend(6, 2, 0)),
        again(business(3)),
        again(business(5)),
        again(resend(6, 2, 4)),
        again(business(7)),
        business(4),
    ];
    let sends = [
        [4, 9, 3, 0],
        [3, 2, 10, 0],
        [4, 10, 3, 0],
        [4, 11, 4, 0],
        [3, 2, 5, 0],
        [4, 12, 4, 0],
        [2, 13, 0, 0],
    ];
    let length = |count: usize| messages[..count].concat().len();
    let bytes = messages.concat();
    let row = [1, 3, 3, length(3) as u32, messages[3].len() as u32];
    let mut session = live(3, 9);
    let whole = many(&mut session, &bytes, ROOMY, ROOMY);
    assert_eq!(end(&whole.done), (length(7), Ended::Down, 37, 0));
    laid(&whole, &[row], &sends);
    assert_eq!(state(&session), (Phase::Down, 4, 14, 0));

    // A step whose messages to send find no slot is not done, and the count is as
    // it was before it: slots, messages done, sends laid, O, M, count.
    for (slots, done, laid_sends, o, m, repeats) in [
        (2, 2, 1, 10, 5, 0),
        (3, 4, 3, 11, 5, 0),
        (4, 5, 4, 12, 5, 1),
        (5, 5, 4, 12, 5, 1),
        (6, 6, 6, 13, 5, 2),
    ] {
        let mut session = live(3, 9);
        let full = many(&mut session, &bytes, ROOMY, slots * A_SEND);
        assert_eq!(end(&full.done), (length(done), Ended::NoSlot, 0, 0));
        let rows = if done > 3 { &[row][..] } else { &[] };
        laid(&full, rows, &sends[..laid_sends]);
        let e = if done > 3 { 4 } else { 3 };
        assert_eq!(numbers(&session), (e, o, m, repeats));
        // The call again from there on ends as the whole one did.
        let rest = many(&mut session, &bytes[length(done)..], ROOMY, ROOMY);
        assert_eq!((rest.done.ended, rest.done.code), (Ended::Down, 37));
        assert_eq!(laid_sends + rest.done.sends, sends.len());
    }
}

/// Random days over a bad line: the plain side does the same, and what a session
/// may be is what the C interface lets it be.
#[test]
fn hole_days() {
    let mut rng = Rng::new(13);
    let mut codes = [0u32; 41];
    let mut counts = [0u32; MOST_REPEATS as usize + 1];
    let mut both = 0;
    for _ in 0..1_500 {
        let start = make::hole_start(&mut rng);
        let mut session = Session::saved(&start.comp_id, start.e, start.o).unwrap();
        for event in make::hole_events(&mut rng, &start, 60) {
            let before = session.clone();
            match event {
                Event::Connect(password) => {
                    let mut fast = plain::Session::of(&session);
                    let answer = session.connect(&password);
                    assert_eq!(fast.connect(&password), answer);
                    is_same(&fast, &session);
                    assert!(answer.is_ok() || session == before);
                }
                Event::Drop => session.drop(),
                Event::Lend(bytes) => {
                    let answer = stepped(&mut session, &bytes);
                    codes[answer.code as usize] += 1;
                    both += u32::from(before.m != 0 && answer.sends[1] != Send::None);
                    let asked = session.repeats > before.repeats;
                    if asked {
                        assert_eq!(session.repeats, before.repeats + 1);
                        assert_eq!((session.e, session.m), (before.e, before.m));
                        assert!(answer.sends.contains(&request(before.o, before.e)));
                    }
                }
            }
            let kept = session.e == before.e && session.m == before.m;
            assert!(kept || session.repeats == 0);
            assert!(session.repeats <= MOST_REPEATS);
            assert!(session.m != 0 || session.repeats == 0);
            assert!(session.m == 0 || session.o >= ASKED_ONCE + session.repeats);
            counts[session.repeats as usize] += 1;
        }
    }
    for code in [0, 4, 20, 22, 30, 33, 34, 37] {
        assert!(codes[code] > 10, "code {} {:?}", code, codes);
    }
    assert!(counts.iter().all(|&count| count > 500), "{:?}", counts);
    assert!(both > 100, "{}", both);
}

#[test]
fn session_live_in_turn() {
    // 8.
    stops(live(LAST, 4), &business(LAST), 36);
    stops(live(LAST, LAST), &test_request(LAST), 36);
    stops(live(LAST, 4), &gap_fill(LAST, 0), 36);
    stops(live(LAST, 4), &resend(LAST, 0, 0), 36);
    let mut session = live(LAST - 1, 4);
    assert_eq!(session.step(&business(LAST - 1)).row.first, LAST - 1);
    assert_eq!(session.e, LAST);

    // 9.
    stops(live(3, 4), &gap_fill(3, 3), 33);
    stops(live(3, 4), &gap_fill(3, 0), 33);
    let mut session = live(3, 4);
    assert_eq!(
        session.step(&gap_fill(3, LAST)),
        Answer {
            row: row(RowSort::Filled, 3, LAST - 1),
            ..NOTHING
        }
    );
    assert_eq!(state(&session), (Phase::Live, LAST, 4, 0));

    let mut session = live(3, 4);
    let answer = session.step(&test_request(3));
    assert_eq!(
        answer,
        Answer {
            sends: [
                Send::Heartbeat {
                    number: 4,
                    id: 0x1234
                },
                Send::None
            ],
            row: row(RowSort::Session, 3, 3),
            ..NOTHING
        }
    );
    assert_eq!(
        answer.sends[0].bytes(US),
        writer::heartbeat_for(4, US, 0x1234)
    );
    assert_eq!(state(&session), (Phase::Live, 4, 5, 0));
    let mut session = live(3, LAST);
    assert_eq!(session.step(&test_request(3)), only(22));
    assert_eq!(state(&session), (Phase::Down, 3, LAST, 0));

    for (start, end, new) in [
        (1, 0, Some(9)),
        (8, 8, Some(9)),
        (1, 7, Some(8)),
        (1, 8, Some(9)),
        (1, LAST, Some(9)),
        (0, 0, None),
        (9, 0, None),
        (LAST, 0, None),
        (5, 4, None),
    ] {
        let bytes = resend(3, start, end);
        match new {
            None => stops(live(3, 9), &bytes, 34),
            Some(new) => {
                let mut session = live(3, 9);
                assert_eq!(
                    session.step(&bytes),
                    Answer {
                        sends: [Send::GapFill { first: start, new }, Send::None],
                        row: row(RowSort::Session, 3, 3),
                        ..NOTHING
                    }
                );
                assert_eq!(state(&session), (Phase::Live, 4, 9, 0));
            }
        }
    }

    let mut rng = Rng::new(3);
    for (message_type, sort) in [
        (0, RowSort::Session),
        (3, RowSort::Session),
        (9, RowSort::Business),
        (10, RowSort::Business),
    ] {
        let mut session = live(3, 4);
        let answer = session.step(&make::message(&mut rng, message_type, 3, US));
        assert_eq!(
            answer,
            Answer {
                row: row(sort, 3, 3),
                ..NOTHING
            }
        );
    }
}

// ---- Two gap fills as one (document 02, item 12) ----

/// A Live session that takes gap fills from E to b and from b to c is as with one
/// from E to c, every member of it, whatever their PossDup.
fn filled_as_one(session: &Session, b: u32, c: u32) {
    let a = session.e;
    let flags: [fn(Vec<u8>) -> Vec<u8>; 2] = [|bytes| bytes, again];
    for (flag, flag_behind) in flags
        .iter()
        .flat_map(|flag| flags.map(|other| (flag, other)))
    {
        let mut in_turn = session.clone();
        let first = stepped(&mut in_turn, &flag(gap_fill(a, b)));
        assert_eq!(first.row, row(RowSort::Filled, a, b - 1));
        let second = stepped(&mut in_turn, &flag_behind(gap_fill(b, c)));
        assert_eq!(second.row, row(RowSort::Filled, b, c - 1));
        let mut at_once = session.clone();
        let both = stepped(&mut at_once, &flag(gap_fill(a, c)));
        assert_eq!(both.row, row(RowSort::Filled, a, c - 1));
        assert_eq!(in_turn, at_once);
        for answer in [first, second, both] {
            assert_eq!((answer.code, answer.sends), (0, [Send::None; 2]));
        }
        let ahead = if c > session.m { 0 } else { session.m };
        assert_eq!(numbers(&in_turn), (c, session.o, ahead, 0));
        assert_eq!(in_turn.comp_id, session.comp_id);
    }
}

/// M is 0, or stands at E, within the first gap fill, at b, between b and c, at c
/// and past it.
#[test]
fn two_gap_fills_as_one() {
    for o in [5, 9, LAST] {
        for (a, b, c) in [(3, 6, 9), (3, 4, 5), (1, 2, LAST), (3, LAST - 1, LAST)] {
            filled_as_one(&live(a, o), b, c);
            let mut ahead = vec![a.max(2), a + 1, b - 1, b, b + 1, c - 1, c, LAST];
            ahead.push(c.saturating_add(1));
            for m in ahead {
                for repeats in 0..=MOST_REPEATS {
                    filled_as_one(&with_hole(a, o, m.max(2), repeats), b, c);
                }
            }
        }
        filled_as_one(&live(LAST - 2, o), LAST - 1, LAST);
        filled_as_one(&with_hole(LAST - 2, o, LAST, 1), LAST - 1, LAST);
    }
}

/// The plan's gap fills do so too: what the bench sends over a lunch leaves the
/// session as the undivided plan does.
#[test]
fn joined_fills_as_one() {
    let list = [1, 0, 0, 0, 0, 1];
    let fills = |numbers: &[u32]| {
        let mut session = with_hole(2, 9, 4, 1);
        for pair in numbers.chunks_exact(A_PAIR) {
            stepped(&mut session, &again(gap_fill(pair[0], pair[1])));
        }
        session
    };
    for middle in 2..5 {
        let (one, other) = (planned(&list, 2, middle), planned(&list, middle + 1, 5));
        let appended = [&one[..], &other].concat();
        assert_eq!(fills(&appended), fills(&joined(&one, &other)));
        assert_eq!(joined(&one, &other), [2, 6]);
    }
}

// ---- Many messages in one call ----

/// What stands in a list where nothing was laid.
const UNLAID: u32 = 0xA5A5_A5A5;

/// Room for more rows and messages to send than a test gives.
const ROOMY: usize = 100;

/// What a call ended with, and what stands at the front of the lists. Each test
/// names all that was laid: the rest of both lists must be as it was.
struct Many {
    done: Done,
    rows: Vec<u32>,
    sends: Vec<u32>,
}

/// A call over lists of so many numbers. The plain side must do the same.
fn many(session: &mut Session, bytes: &[u8], row_room: usize, send_room: usize) -> Many {
    let mut rows = vec![UNLAID; row_room];
    let mut sends = vec![UNLAID; send_room];
    let (mut other_rows, mut other_sends) = (rows.clone(), sends.clone());
    let mut other = plain::Session::of(session);
    let before = session.clone();
    let done = session.steps(bytes, &mut rows, &mut sends);
    let told = other.steps(bytes, &mut other_rows, &mut other_sends);
    assert_eq!(told, done, "{:?} {:?}", before, bytes);
    assert_eq!((&other_rows, &other_sends), (&rows, &sends));
    is_same(&other, session);
    Many { done, rows, sends }
}

/// The lists must hold these numbers in front, and nothing behind them.
fn laid(many: &Many, rows: &[[u32; A_ROW]], sends: &[[u32; A_SEND]]) {
    for (list, front) in [(&many.rows, rows.concat()), (&many.sends, sends.concat())] {
        let (laid, behind) = list.split_at(front.len());
        assert_eq!(laid, front);
        assert!(behind.iter().all(|&number| number == UNLAID), "{:?}", list);
    }
    if many.done.refusal == 0 {
        assert_eq!((many.done.rows, many.done.sends), (rows.len(), sends.len()));
    }
}

/// How a call ended: used, why, the code, what is returned besides.
fn end(done: &Done) -> (usize, Ended, u32, usize) {
    assert_eq!(done.refusal, 0);
    (done.used, done.ended, done.code, done.besides)
}

/// A business message behind E that says so: a step on it gives nothing.
fn behind(n: u32) -> Vec<u8> {
    let mut bytes = business(n);
    bytes[8] = 1;
    make::reseal(&mut bytes);
    bytes
}

/// The sum spoiled: the message is dropped.
fn bad_sum(mut bytes: Vec<u8>) -> Vec<u8> {
    bytes[30] ^= 1;
    bytes
}

#[test]
fn many_until_short() {
    let (a, b, c) = (business(3), test_request(4), gap_fill(5, 9));
    let (to_b, to_c) = (a.len() as u32, (a.len() + b.len()) as u32);
    let rows = [
        [1, 3, 3, 0, to_b],
        [2, 4, 4, to_b, b.len() as u32],
        [3, 5, 8, to_c, c.len() as u32],
    ];
    let whole = [&a[..], &b, &c].concat();
    // Nothing left, one byte, the Length not whole, the Length alone, all but one.
    let next = business(9);
    for (more, needed) in [(0, 3), (1, 3), (2, 3), (3, next.len()), (60, next.len())] {
        let bytes = [&whole[..], &next[..more]].concat();
        let mut session = live(3, 7);
        let many = many(&mut session, &bytes, ROOMY, ROOMY);
        assert_eq!(end(&many.done), (whole.len(), Ended::Short, 0, needed));
        laid(&many, &rows, &[[1, 7, 0x1234, 0]]);
        assert_eq!(state(&session), (Phase::Live, 9, 8, 0));
    }
    assert_eq!(next.len(), 61);

    // No message at all.
    let mut session = waiting(3, 4);
    let many = many(&mut session, &[], A_ROW, 2 * A_SEND);
    assert_eq!(end(&many.done), (0, Ended::Short, 0, 3));
    laid(&many, &[], &[]);
    assert_eq!(state(&session), (Phase::Waiting, 3, 4, 0));
}

#[test]
fn many_until_down() {
    // A day's begin and end in one slice: what stands behind is not looked at.
    let (first, reset, logout) = (logon(3, 4), reset(1, 9), framed(6, 9, &[], &[]));
    let (at, then) = (first.len() as u32, (first.len() + reset.len()) as u32);
    let used = first.len() + reset.len() + logout.len();
    let bytes = [&first[..], &reset, &logout, &business(10)].concat();
    let mut session = waiting(3, 4);
    let many_of_day = many(&mut session, &bytes, ROOMY, ROOMY);
    assert_eq!(end(&many_of_day.done), (used, Ended::Down, 0, 0));
    let rows = [
        [2, 3, 3, 0, at],
        [4, 4, 8, at, reset.len() as u32],
        [2, 9, 9, then, logout.len() as u32],
    ];
    laid(&many_of_day, &rows, &[[2, 4, 0, 0]]);
    assert_eq!(state(&session), (Phase::Down, 10, 5, 0));

    // A Reject in place of the Logon: nothing is sent.
    let reject = framed(3, 3, &[0, 4], &[0; 6]);
    let mut session = waiting(3, 4);
    let many = many(&mut session, &reject, ROOMY, ROOMY);
    assert_eq!(end(&many.done), (reject.len(), Ended::Down, 0, 0));
    laid(&many, &[[2, 3, 3, 0, reject.len() as u32]], &[]);
    assert_eq!(state(&session), (Phase::Down, 4, 4, 0));
}

/// Every step that stops the session, what it returns besides, and what it uses:
/// 2 and 3 nothing, all others their Length.
#[test]
fn many_until_stopped() {
    let good = business(3);
    let row = [1, 3, 3, 0, good.len() as u32];
    let mut foreign = business(4);
    foreign[10] = b'X';
    make::reseal(&mut foreign);
    for (last, code, besides, uses) in [
        (vec![7], 2, 0, false),
        (vec![7; 80], 2, 0, false),
        (vec![2, 57, 0], 3, 0, false),
        (vec![2, 1, 16, 9], 3, 0, false),
        (framed(11, 4, &[], &[]), 5, 0, true),
        (framed(0, 0, &[], &[]), 6, 0, true),
        (framed(0, 4, &[40], &[]), 7, 40, true),
        (framed(0, 4, &[255], &[]), 7, 255, true),
        (framed(1, 4, &[], &[]), 8, 0, true),
        (framed(2, 4, &[0], &[]), 8, 1, true),
        (framed(1, 4, &[0], &[1]), 9, 0, true),
        (framed(2, 4, &[0, 1], &[1; 7]), 9, 1, true),
        (framed(0, 4, &[], &[1]), 10, 1, true),
        (framed(0, 4, &[0], &[1; 9]), 10, 7, true),
        (business(2), 30, 0, true),
        (foreign, 31, 0, true),
        (logon(4, 7), 32, 0, true),
        (reset(4, 2), 33, 0, true),
        (resend(4, 0, 0), 34, 0, true),
    ] {
        let bytes = [&good[..], &last].concat();
        let used = if uses { bytes.len() } else { good.len() };
        let mut session = live(3, 7);
        let stopped = many(&mut session, &bytes, ROOMY, ROOMY);
        assert_eq!(end(&stopped.done), (used, Ended::Down, code, besides));
        laid(&stopped, &[row], &[[2, 7, 0, 0]]);
        assert_eq!(state(&session), (Phase::Down, 4, 8, 0));
    }
    // 22 sends nothing.
    let bytes = [&good[..], &test_request(4)].concat();
    let mut session = live(3, LAST);
    let spent = many(&mut session, &bytes, ROOMY, ROOMY);
    assert_eq!(end(&spent.done), (bytes.len(), Ended::Down, 22, 0));
    laid(&spent, &[row], &[]);
    assert_eq!(state(&session), (Phase::Down, 4, LAST, 0));
}

/// 4 uses its Length and the next message is stepped on.
#[test]
fn many_over_a_bad_sum() {
    let (spoiled, good) = (bad_sum(test_request(3)), business(3));
    let bytes = [&spoiled[..], &good].concat();
    let mut session = live(3, 7);
    let many = many(&mut session, &bytes, ROOMY, ROOMY);
    assert_eq!(end(&many.done), (bytes.len(), Ended::Short, 0, 3));
    let place = spoiled.len() as u32;
    laid(&many, &[[1, 3, 3, place, good.len() as u32]], &[]);
    assert_eq!(state(&session), (Phase::Live, 4, 7, 0));
}

#[test]
fn many_refused() {
    let refused = |session: Session, row_room, send_room, done: Done| {
        for bytes in [Vec::new(), vec![7], business(3)] {
            let mut after = session.clone();
            let many = many(&mut after, &bytes, row_room, send_room);
            assert_eq!(many.done, done);
            laid(&many, &[], &[]);
            assert_eq!(after, session);
        }
    };
    let down = Done {
        refusal: 20,
        used: 0,
        rows: 0,
        sends: 0,
        ended: Ended::Down,
        code: 20,
        besides: 0,
    };
    let no_room = Done {
        refusal: 11,
        used: 0,
        rows: 1,
        sends: 2,
        ended: Ended::NoSlot,
        code: 0,
        besides: 0,
    };
    // 20 comes before 11.
    for (row_room, send_room) in [(0, 0), (4, 8), (5, 7), (5, 8), (ROOMY, ROOMY)] {
        refused(Session::saved(US, 3, 4).unwrap(), row_room, send_room, down);
    }
    for session in [waiting(3, 4), live(3, 4)] {
        for row_room in 0..A_ROW {
            refused(session.clone(), row_room, ROOMY, no_room);
        }
        for send_room in 0..2 * A_SEND {
            refused(session.clone(), ROOMY, send_room, no_room);
        }
        refused(session, A_ROW - 1, 2 * A_SEND - 1, no_room);
    }
    // One row and two messages to send are enough.
    let good = business(3);
    let mut session = live(3, 4);
    let many = many(&mut session, &good, A_ROW, 2 * A_SEND);
    assert_eq!(end(&many.done), (good.len(), Ended::Short, 0, 3));
    laid(&many, &[[1, 3, 3, 0, good.len() as u32]], &[]);
}

#[test]
fn many_without_a_row_slot() {
    let good = business(3);
    let length = good.len();
    let bytes = [&good[..], &business(4), &business(5)].concat();
    let row = |n, place: usize| [1, n, n, place as u32, length as u32];
    // Numbers that make no whole slot hold no row.
    for row_room in 2 * A_ROW..3 * A_ROW {
        let mut session = live(3, 7);
        let full = many(&mut session, &bytes, row_room, ROOMY);
        assert_eq!(end(&full.done), (2 * length, Ended::NoSlot, 0, 0));
        laid(&full, &[row(3, 0), row(4, length)], &[]);
        assert_eq!(state(&session), (Phase::Live, 5, 7, 0));
        // The call again, with the bytes from there on and the lists emptied.
        let rest = many(&mut session, &bytes[2 * length..], row_room, ROOMY);
        assert_eq!(end(&rest.done), (length, Ended::Short, 0, 3));
        laid(&rest, &[row(5, 0)], &[]);
    }
    // A step with a row and a message to send is done whole or not at all.
    let bytes = [&good[..], &test_request(4)].concat();
    let mut session = live(3, 7);
    let full = many(&mut session, &bytes, A_ROW, ROOMY);
    assert_eq!(end(&full.done), (length, Ended::NoSlot, 0, 0));
    laid(&full, &[row(3, 0)], &[]);
    assert_eq!(state(&session), (Phase::Live, 4, 7, 0));
    // A Logout as well: the session is not Down yet.
    let bytes = [&good[..], &framed(6, 4, &[], &[])].concat();
    let mut session = live(3, 7);
    let full = many(&mut session, &bytes, A_ROW, ROOMY);
    assert_eq!(end(&full.done), (length, Ended::NoSlot, 0, 0));
    assert_eq!(state(&session), (Phase::Live, 4, 7, 0));
}

#[test]
fn many_without_a_send_slot() {
    // One message to send, then two of one step: a Resend Request ahead of E.
    let (first, ahead) = (test_request(3), resend(6, 2, 4));
    let bytes = [&first[..], &ahead].concat();
    let row = [2, 3, 3, 0, first.len() as u32];
    let heartbeat = [1, 9, 0x1234, 0];
    for send_room in 2 * A_SEND..3 * A_SEND {
        let mut session = live(3, 9);
        let full = many(&mut session, &bytes, ROOMY, send_room);
        assert_eq!(end(&full.done), (first.len(), Ended::NoSlot, 0, 0));
        laid(&full, &[row], &[heartbeat]);
        assert_eq!(state(&session), (Phase::Live, 4, 10, 0));
    }
    let mut session = live(3, 9);
    let fits = many(&mut session, &bytes, A_ROW, 3 * A_SEND);
    assert_eq!(end(&fits.done), (bytes.len(), Ended::Short, 0, 3));
    laid(&fits, &[row], &[heartbeat, [3, 2, 5, 0], [4, 10, 4, 0]]);
    assert_eq!(state(&session), (Phase::Live, 4, 11, 6));

    // A single message to send needs a single slot, and Stop's Logout one too.
    let bytes = [test_request(3), test_request(4), business(1)].concat();
    let mut session = live(3, 9);
    let full = many(&mut session, &bytes, ROOMY, 2 * A_SEND);
    let used = 2 * first.len();
    assert_eq!(end(&full.done), (used, Ended::NoSlot, 0, 0));
    assert_eq!((full.done.rows, full.done.sends), (2, 2));
    assert_eq!(state(&session), (Phase::Live, 5, 11, 0));
    // The bad start too is found no slot for, and not used.
    let bytes = [&bytes[..used], &[7]].concat();
    let mut session = live(3, 9);
    let full = many(&mut session, &bytes, ROOMY, 2 * A_SEND);
    assert_eq!(end(&full.done), (used, Ended::NoSlot, 0, 0));
    // Where our numbers are used up the Logout needs no slot: it is not sent.
    let mut session = live(3, LAST - 2);
    let stopped = many(&mut session, &bytes, ROOMY, 2 * A_SEND);
    assert_eq!(end(&stopped.done), (used, Ended::Down, 2, 0));
    assert_eq!(state(&session), (Phase::Down, 5, LAST, 0));
}

/// A step needs slots for what it gives, and no more.
#[test]
fn many_go_on_in_full_lists() {
    let good = business(3);
    let full = [
        good.clone(),
        behind(2),
        bad_sum(business(4)),
        reset(1, 4),
        business(6),
        behind(3),
        business(7),
    ]
    .concat();
    let row = [1, 3, 3, 0, good.len() as u32];
    let asked = [4, 7, 4, 0];
    let mut session = live(3, 7);
    let short = many(&mut session, &full, A_ROW, 2 * A_SEND);
    assert_eq!(end(&short.done), (full.len(), Ended::Short, 0, 3));
    laid(&short, &[row], &[asked]);
    assert_eq!(state(&session), (Phase::Live, 4, 8, 6));

    // Short is seen before the missing slot.
    let next = business(4);
    let bytes = [&full[..], &next[..next.len() - 1]].concat();
    let mut session = live(3, 7);
    let short = many(&mut session, &bytes, A_ROW, 2 * A_SEND);
    let needed = next.len();
    assert_eq!(end(&short.done), (full.len(), Ended::Short, 0, needed));
    let bytes = [&full[..], &next].concat();
    let mut session = live(3, 7);
    let no_slot = many(&mut session, &bytes, A_ROW, 2 * A_SEND);
    assert_eq!(end(&no_slot.done), (full.len(), Ended::NoSlot, 0, 0));
    laid(&no_slot, &[row], &[asked]);

    // Stop gives no row, and its Logout finds the second slot.
    let bytes = [&full[..], &business(3)].concat();
    let mut session = live(3, 7);
    let stopped = many(&mut session, &bytes, A_ROW, 2 * A_SEND);
    assert_eq!(end(&stopped.done), (bytes.len(), Ended::Down, 30, 0));
    laid(&stopped, &[row], &[asked, [2, 8, 0, 0]]);
}

/// The steps one by one, each on the bytes behind what the last one used, must
/// give what a call with roomy lists gives.
#[test]
fn many_as_single_steps() {
    let mut rng = Rng::new(9);
    let mut endings = [0u32; 4];
    let mut told_besides = 0;
    let mut steps = 0;
    for _ in 0..3_000 {
        let start = make::start(&mut rng);
        let mut session = Session::saved(&start.comp_id, start.e, start.o).unwrap();
        let _ = session.connect(b"");
        while session.phase != Phase::Down {
            let bytes = make::slice(&mut rng, &session, 8);
            let mut single = session.clone();
            let [row_room, send_room] = if rng.chance(50) {
                [ROOMY; 2]
            } else {
                [A_ROW + rng.index(20), 2 * A_SEND + rng.index(16)]
            };
            let many = many(&mut session, &bytes, row_room, send_room);
            endings[many.done.ended as usize] += 1;
            let (mut rows, mut sends) = (Vec::new(), Vec::new());
            let mut used = 0;
            let mut last = NOTHING;
            while used < many.done.used {
                let answer = single.step(&bytes[used..]);
                last = answer;
                let length = session::used(answer.code, &bytes[used..]);
                rows.extend(answer.row.numbers(used as u32, length as u32));
                sends.extend(answer.sends.iter().filter_map(Send::numbers));
                used += length;
                steps += 1;
            }
            if many.done.ended == Ended::Down && single.phase != Phase::Down {
                // The step that stopped the session used nothing: 2 or 3.
                last = single.step(&bytes[used..]);
                assert!(last.code == 2 || last.code == 3);
                sends.extend(last.sends.iter().filter_map(Send::numbers));
            }
            laid(&many, &rows, &sends);
            assert_eq!(single, session);
            let (code, besides) = match many.done.ended {
                Ended::Down => (last.code, last.besides),
                Ended::Short => (0, single.step(&bytes[used..]).besides),
                Ended::NoSlot => (0, 0),
            };
            let done = (many.done.code, many.done.besides);
            assert_eq!(done, (code, besides as usize));
            told_besides += u32::from(many.done.ended == Ended::Down && besides > 0);
            if rng.chance(20) {
                break;
            }
        }
    }
    assert!(
        endings[1..].iter().all(|&count| count > 100),
        "{:?}",
        endings
    );
    assert!(steps > 3_000 * 5, "{}", steps);
    assert!(told_besides > 10, "{}", told_besides);
}

// ---- Both ends meet (document 02, item 14) ----

fn heartbeat(n: u32) -> Vec<u8> {
    framed(0, n, &[], &[])
}

/// The message under another Comp ID.
fn under(comp_id: &[u8], mut bytes: Vec<u8>) -> Vec<u8> {
    bytes[10..22].copy_from_slice(&padded(comp_id, 12));
    make::reseal(&mut bytes);
    bytes
}

/// The message with PossResend 1.
fn resent(mut bytes: Vec<u8>) -> Vec<u8> {
    bytes[9] = 1;
    make::reseal(&mut bytes);
    bytes
}

/// Session, business, session, session, business.
fn small_list() -> [Vec<u8>; 5] {
    [
        logon(1, 1),
        business(2),
        heartbeat(3),
        test_request(4),
        business(5),
    ]
}

/// The plan's figure of document 01 as bytes.
#[test]
fn sending_a_worked_list() {
    let gap_fill: Vec<u8> = [
        // Length 63, type 4, number 3, PossDup 1, PossResend 0.
        &[2, 63, 0, 4, 3, 0, 0, 0, 1, 0][..],
        b"RECORDER01\0\0",
        // Gap Fill and New: positions 0 and 1.
        &[0xC0],
        &[0; 31],
        &[b'Y', 5, 0, 0, 0],
    ]
    .concat();
    let sum = crc::crc32c(&gap_fill).to_le_bytes();
    let gap_fill = [&gap_fill[..], &sum].concat();
    let business: Vec<u8> = [
        // Length 61, type 9, number 5, PossDup 1, PossResend 0.
        &[2, 61, 0, 9, 5, 0, 0, 0, 1, 0][..],
        b"RECORDER01\0\0",
        // Business Reject Code and Reference Message Type: positions 0 and 2.
        &[0xA0],
        &[0; 31],
        &[0; 3],
    ]
    .concat();
    let sum = crc::crc32c(&business).to_le_bytes();
    let business = [&business[..], &sum].concat();
    let sent = gateway::send(&small_list().concat(), 3, 0).unwrap();
    assert_eq!(sent, [gap_fill, business].concat());
}

/// What is sent for a Start and an End over the small list.
fn sent_of_small(start: u32, end: u32) -> Vec<u8> {
    gateway::send(&small_list().concat(), start, end).unwrap()
}

#[test]
fn sending_from_start_to_end() {
    let fill = |n: u32, new: u32| again(gap_fill(n, new));
    let at = |n: u32| again(business(n));
    let all = [fill(1, 2), at(2), fill(3, 5), at(5)].concat();
    // End 0, at the list's last number and past it.
    for end in [0, 5, 6, LAST] {
        assert_eq!(sent_of_small(1, end), all);
        assert_eq!(sent_of_small(4, end), [fill(4, 5), at(5)].concat());
        assert_eq!(sent_of_small(5, end), at(5));
    }
    // Within the list, inside a run too.
    assert_eq!(sent_of_small(1, 1), fill(1, 2));
    assert_eq!(sent_of_small(1, 2), [fill(1, 2), at(2)].concat());
    assert_eq!(sent_of_small(2, 3), [at(2), fill(3, 4)].concat());
    assert_eq!(sent_of_small(3, 4), fill(3, 5));
    assert_eq!(sent_of_small(4, 4), fill(4, 5));
}

/// A listed Sequence Reset is a session number like any other, and all types but 9
/// and 10 are.
#[test]
fn sending_session_numbers() {
    let mut rng = Rng::new(30);
    let list: Vec<u8> = (0..9)
        .flat_map(|message_type| {
            let number = u32::from(message_type) + 1;
            make::message(&mut rng, message_type, number, US)
        })
        .collect();
    assert_eq!(gateway::send(&list, 1, 0), Ok(again(gap_fill(1, 10))));
    assert_eq!(gateway::send(&list, 4, 7), Ok(again(gap_fill(4, 8))));
}

/// PossDup becomes 1 whatever it was, PossResend stays; a gap fill has none.
#[test]
fn sending_flags() {
    for poss_resend in [0, 1] {
        let flagged = |bytes| {
            if poss_resend == 1 {
                resent(bytes)
            } else {
                bytes
            }
        };
        for listed in [business(1), again(business(1))] {
            let list = [flagged(listed), flagged(again(heartbeat(2)))].concat();
            let sent = [flagged(again(business(1))), again(gap_fill(2, 3))].concat();
            assert_eq!(gateway::send(&list, 1, 0), Ok(sent));
        }
    }
}

/// Zeros after a fixed text's null, and nothing after a variable text's.
#[test]
fn sending_plain_form() {
    // Number 8 has a variable text with bytes after its null. A fixed text and the
    // Comp ID get some too.
    let mut listed = business_reject();
    let name = 54 + 2 + 8 + 1;
    assert_eq!(listed[name..name + 5], *b"Side\0");
    listed[name + 5..name + 50].fill(7);
    listed[21] = b'!';
    listed[4] = 1;
    make::reseal(&mut listed);
    let plain = [
        &[0x34, 0x12][..],
        &[3, 0, b'n', b'o', 0],
        &[10],
        &padded(b"Side", 50),
        &[0xFF, 0xFE, 0xFD, 0xFC],
        &padded(b"", 21),
    ]
    .concat();
    let plain = again(framed(9, 1, &[0, 1, 2, 3, 4, 5], &plain));
    assert_eq!(listed.len(), plain.len() + 3);
    assert_eq!(gateway::send(&listed, 1, 0), Ok(plain.clone()));
    // The Comp ID is its characters: what stands behind its null makes no other.
    let list = [listed, heartbeat(2)].concat();
    let sent = [plain, again(gap_fill(2, 3))].concat();
    assert_eq!(gateway::send(&list, 1, 0), Ok(sent));
}

#[test]
fn sending_wrong_lists() {
    let says = |list: &[Vec<u8>], start: u32, end: u32, line: &str| {
        let wrong = gateway::send(&list.concat(), start, end).unwrap_err();
        assert_eq!(wrong.to_string(), line);
    };
    let other = |bytes| under(b"RECORDER02", bytes);
    let good = small_list();
    // Refused, in their order: 1 at the end, and one of each other sort.
    let line = |k: usize, r: u32| format!("bench: message {} of the list is refused {}", k, r);
    for length in [1, 2, 3, 57, 60] {
        let cut = business(2)[..length].to_vec();
        says(&[business(1), cut], 1, 0, &line(2, 1));
    }
    says(&[business(1), vec![10]], 1, 0, &line(2, 2));
    says(&[vec![2, 57, 0]], 1, 0, &line(1, 3));
    says(&[bad_sum(business(1))], 1, 0, &line(1, 4));
    says(&[framed(11, 1, &[], &[])], 1, 0, &line(1, 5));
    says(&[heartbeat(1), framed(0, 0, &[], &[])], 1, 0, &line(2, 6));
    says(&[framed(9, 1, &[2], &[0])], 1, 0, &line(1, 8));
    says(&[framed(0, 1, &[], &[0])], 1, 0, &line(1, 10));
    // Numbers and Comp IDs.
    let line = "bench: message 2 of the list bears number 3";
    says(&[business(1), business(3)], 1, 0, line);
    let line = "bench: message 1 of the list bears number 4294967295";
    says(&[business(LAST)], 1, 0, line);
    let line = "bench: message 3 of the list bears number 2";
    says(&[business(1), business(2), business(2)], 1, 0, line);
    let line = "bench: message 2 of the list has another Comp ID than the first";
    says(&[business(1), other(business(2))], 1, 0, line);
    says(&[other(business(1)), business(2)], 1, 0, line);
    says(&[business(1), under(b"RECORDER0", business(2))], 1, 0, line);
    says(
        &[business(1), under(b"RECORDER012", business(2))],
        1,
        0,
        line,
    );
    // The first message that is wrong is told, and of it the first that holds.
    let line = "bench: message 2 of the list bears number 7";
    says(&[business(1), other(business(7)), vec![10]], 0, 0, line);
    let line = "bench: message 2 of the list is refused 4";
    says(&[business(1), bad_sum(other(business(7)))], 0, 0, line);
    // The plan comes last.
    says(&[], 1, 0, "bench: refused 40");
    for (start, end) in [(0, 0), (6, 0), (LAST, LAST), (2, 1), (5, 4), (0, 3)] {
        says(&good, start, end, "bench: refused 40");
    }
}

/// A good list of so many bytes, all of it Logouts, of which the last has a longer
/// text.
fn list_of(length: usize) -> Vec<u8> {
    let mut list = Vec::new();
    for n in 1.. {
        let left = length - list.len();
        if left < 2 * LEAST + 3 {
            let body = variable(&vec![b'A'; left - LEAST - 3]);
            list.extend(framed(6, n, &[0], &body));
            break;
        }
        list.extend(framed(6, n, &[], &[]));
    }
    assert_eq!(list.len(), length);
    list
}

#[test]
fn sending_the_longest_list() {
    let longest = list_of(gateway::LONGEST);
    let count = (longest.len() / LEAST) as u32;
    let sent = again(gap_fill(1, count + 1));
    assert_eq!(gateway::send(&longest, 1, 0), Ok(sent));
    let line = "bench: the list is too long: it has at most 1048576 bytes";
    let wrong = gateway::send(&list_of(gateway::LONGEST + 1), 1, 0);
    assert_eq!(wrong, Err(Wrong::TooLong));
    assert_eq!(Wrong::TooLong.to_string(), line);
    // It is told before everything else.
    let zeros = vec![0; gateway::LONGEST + 1];
    assert_eq!(gateway::send(&zeros, 0, 0), wrong);
}

#[test]
fn sending_first_line() {
    let asked = |start, end, list| Some(Asked { start, end, list });
    for (input, answer) in [
        (&b"send start=3 end=0\n"[..], asked(3, 0, &b""[..])),
        (
            b"send start=0 end=4294967295\n\n\x02",
            asked(0, LAST, b"\n\x02"),
        ),
        (b"send start=1 end=4294967296\n", None),
        (b"send start=-1 end=0\n", None),
        (b"send start= end=0\n", None),
        (b"send start=1  end=0\n", None),
        (b"send start=1 end=0 \n", None),
        (b"send start=1 end=0\r\n", None),
        (b"send end=0 start=1\n", None),
        (b"send start=1\n", None),
        (b"start=1 end=0\n", None),
        (b"Send start=1 end=0\n", None),
        (b"", None),
    ] {
        assert_eq!(gateway::asked(input), answer);
    }
}

/// Sends a list to a Live session that asked from E, by single steps and in one
/// call. The list's business messages from E on are handed up in order, nothing
/// is sent, E ends one past the list, and M is 0 if it stood within it.
fn both_ends_meet(list: &[Vec<u8>], session: &Session) {
    let answer = gateway::send(&list.concat(), session.e, 0).unwrap();
    let last = list.len() as u32;
    let after = Session {
        e: last + 1,
        m: if session.m > last { session.m } else { 0 },
        repeats: 0,
        ..session.clone()
    };
    let listed: Vec<Vec<u8>> = list[session.e as usize - 1..]
        .iter()
        .filter(|message| message[3] == 9 || message[3] == 10)
        .map(|message| again(ToWrite::of(message).unwrap().bytes().unwrap()))
        .collect();

    let mut in_turn = session.clone();
    let mut handed_up = Vec::new();
    let mut rest = &answer[..];
    let mut steps = 0;
    while !rest.is_empty() {
        let told = in_turn.step(rest);
        assert_eq!((told.code, told.sends), (0, [Send::None; 2]));
        let (message, behind) = rest.split_at(session::used(0, rest));
        if told.row.sort == RowSort::Business {
            handed_up.push(message.to_vec());
        }
        rest = behind;
        steps += 1;
    }
    assert_eq!(in_turn, after);
    assert_eq!(handed_up, listed);

    let mut at_once = session.clone();
    let many = many(&mut at_once, &answer, A_ROW * steps, 2 * A_SEND);
    assert_eq!(at_once, after);
    assert_eq!(end(&many.done), (answer.len(), Ended::Short, 0, 3));
    assert_eq!((many.done.rows, many.done.sends), (steps, 0));
}

#[test]
fn both_ends_meet_over_every_list() {
    let mut rng = Rng::new(31);
    for count in 1..=5 {
        for marks in make::every_list(count) {
            let list = make::published(&mut rng, US, &marks);
            for e in 1..=count {
                both_ends_meet(&list, &live(e, 2));
                for m in (e.max(2)..=count + 2).chain([LAST]) {
                    let repeats = rng.below(3) as u32;
                    for o in [ASKED_ONCE + repeats, LAST] {
                        both_ends_meet(&list, &with_hole(e, o, m, repeats));
                    }
                }
            }
        }
    }
}

// ---- Silence on the line (document 02, item 2) ----

/// A line over a session with an interval in seconds, as if Live began at this time.
fn over(session: Session, interval: u32, now: u64) -> Line {
    let since = if session.phase == Phase::Live { now } else { 0 };
    Line {
        session,
        interval,
        tested: 0,
        now,
        sent: since,
        heard: since,
    }
}

/// E 3 and O 9, an interval of ten seconds, Live since 100,000.
fn timed() -> Line {
    over(live(3, 9), 10, 100_000)
}

/// The clock of a line: the latest time, when it last sent and heard, and whether this
/// silence has had its Test Request.
fn clock(line: &Line) -> (u64, u64, u64, u32) {
    (line.now, line.sent, line.heard, line.tested)
}

fn acted(act: Act, send: Send) -> Ticked {
    Ticked {
        refusal: 0,
        act,
        send,
    }
}

fn tests(number: u32, id: u16) -> Ticked {
    acted(Act::TestRequest, Send::TestRequest { number, id })
}

fn beats(number: u32) -> Ticked {
    acted(Act::Heartbeat, Send::BareHeartbeat { number })
}

fn falls() -> Ticked {
    acted(Act::Down, Send::None)
}

fn used_up() -> Ticked {
    Ticked {
        refusal: 22,
        ..NO_ACT
    }
}

#[test]
fn line_made_from_a_day() {
    for interval in [1, 2, 30, 59, 60] {
        let line = Line::fresh(US, interval).unwrap();
        assert_eq!(line, over(Session::fresh(US).unwrap(), interval, 0));
        let line = Line::saved(US, 7, LAST, interval).unwrap();
        let session = Session::saved(US, 7, LAST).unwrap();
        assert_eq!(line, over(session, interval, 0));
    }
    for interval in [0, 61, 62, 256, 65_537, LAST] {
        let refused = Err(refuse(BAD_INTERVAL, 0));
        assert_eq!(Line::fresh(US, interval), refused);
        assert_eq!(Line::saved(US, 1, 1, interval), refused);
        // The day's own refusals come first, with a good interval too.
        for interval in [interval, 1] {
            assert_eq!(Line::fresh(b"", interval), Err(refuse(6, 0)));
            assert_eq!(Line::saved(b"", 1, 1, interval), Err(refuse(6, 0)));
            assert_eq!(Line::saved(b"", 0, 1, interval), Err(refuse(23, 0)));
            assert_eq!(Line::saved(US, 1, 0, interval), Err(refuse(23, 0)));
        }
    }
}

/// A silence from its beginning to its end, with ticks all the time: one Heartbeat at
/// one interval, one Test Request at two, Down at three, and nothing in between.
#[test]
fn line_silence_of_three_intervals() {
    let mut line = timed();
    assert_eq!(line.next_tick(), Some(110_000));
    for (time, answer, clock_after, next) in [
        (109_999, NO_ACT, (109_999, 100_000, 100_000, 0), 110_000),
        (110_000, beats(9), (110_000, 110_000, 100_000, 0), 120_000),
        (110_000, NO_ACT, (110_000, 110_000, 100_000, 0), 120_000),
        (119_999, NO_ACT, (119_999, 110_000, 100_000, 0), 120_000),
        (
            120_000,
            tests(10, 10),
            (120_000, 120_000, 100_000, 1),
            130_000,
        ),
        (120_000, NO_ACT, (120_000, 120_000, 100_000, 1), 130_000),
        (129_999, NO_ACT, (129_999, 120_000, 100_000, 1), 130_000),
    ] {
        assert_eq!(line.tick(time), answer, "{}", time);
        assert_eq!(clock(&line), clock_after, "{}", time);
        assert_eq!(line.next_tick(), Some(next), "{}", time);
    }
    assert_eq!(state(&line.session), (Phase::Live, 3, 11, 0));
    assert_eq!(line.tick(130_000), falls());
    assert_eq!(clock(&line), (130_000, 0, 0, 0));
    assert_eq!(state(&line.session), (Phase::Down, 3, 11, 0));
    assert_eq!(line.next_tick(), None);
    assert_eq!(line.tick(999_999), NO_ACT);
    assert_eq!(clock(&line), (999_999, 0, 0, 0));
}

/// At most one of the three, in this order, each due once its time is reached.
#[test]
fn line_tick_order() {
    let two_intervals = tests(9, 9);
    for (sent, heard, tested, time, answer) in [
        // All three are due.
        (100_000, 100_000, 0, 130_000, falls()),
        (100_000, 100_000, 0, u64::MAX, falls()),
        (100_000, 100_000, 1, 130_000, falls()),
        // Down alone.
        (125_000, 100_000, 1, 130_000, falls()),
        // The Test Request and a Heartbeat.
        (100_000, 100_000, 0, 129_999, two_intervals),
        (110_000, 100_000, 0, 120_000, two_intervals),
        // The Test Request alone.
        (110_001, 100_000, 0, 120_000, two_intervals),
        // A silence that has had its Test Request.
        (110_000, 100_000, 1, 120_000, beats(9)),
        (110_001, 100_000, 1, 120_000, NO_ACT),
        (119_999, 100_000, 1, 129_999, beats(9)),
        // A Heartbeat alone, and nothing.
        (100_000, 100_000, 0, 119_999, beats(9)),
        (100_000, 105_000, 0, 110_000, beats(9)),
        (100_001, 105_000, 0, 110_000, NO_ACT),
        (105_000, 100_000, 0, 110_000, NO_ACT),
    ] {
        let mut line = timed();
        line.now = sent.max(heard);
        (line.sent, line.heard, line.tested) = (sent, heard, tested);
        let before = line.clone();
        assert_eq!(line.tick(time), answer, "{:?} {}", before, time);
        // A second tick at the same time, or at an earlier one, does nothing.
        let after = line.clone();
        for again in [time, 0] {
            assert_eq!(line.tick(again), NO_ACT);
            assert_eq!(line, after);
        }
    }
}

#[test]
fn line_test_request_id() {
    for (o, id) in [
        (2, 2),
        (65_535, 65_535),
        (65_536, 0),
        (65_537, 1),
        (LAST - 1, 65_534),
    ] {
        let mut line = over(live(3, o), 1, 0);
        assert_eq!(line.tick(2_000), tests(o, id));
        assert_eq!(line.session.o, o + 1);
    }
}

/// The messages of a tick as bytes: flags 0, and only the fields that are named.
#[test]
fn line_messages() {
    let mut line = over(live(3, 70_000), 1, 0);
    let beat = line.tick(1_000).send.bytes(US).unwrap();
    assert_eq!(beat, framed(0, 70_000, &[], &[]));
    assert_eq!(beat.len(), 58);
    let test = line.tick(2_000).send.bytes(US).unwrap();
    assert_eq!(test, framed(1, 70_001, &[0], &4_465_u16.to_le_bytes()));
    assert_eq!(test.len(), 60);
}

#[test]
fn line_numbers_used_up() {
    for tested in [0, 1] {
        for (time, due) in [
            (109_999, NO_ACT),
            (110_000, used_up()),
            (120_000, used_up()),
            (130_000, falls()),
        ] {
            let mut line = over(with_hole(3, LAST, 7, 1), 10, 100_000);
            line.tested = tested;
            assert_eq!(line.tick(time), due);
            if due == NO_ACT {
                assert_eq!(numbers(&line.session), (3, LAST, 7, 1));
            } else {
                assert_eq!(state(&line.session), (Phase::Down, 3, LAST, 0));
                assert_eq!(line.session.repeats, 0);
                assert_eq!(clock(&line), (time, 0, 0, 0));
            }
        }
    }
    // The last of our numbers is used; the next message finds none.
    let mut line = over(live(3, LAST - 1), 10, 100_000);
    assert_eq!(line.tick(110_000), beats(LAST - 1));
    assert_eq!(line.next_tick(), Some(120_000));
    assert_eq!(line.tick(120_000), used_up());
}

/// What is heard ends the silence; what is sent, the other wait.
#[test]
fn line_hears_and_sends() {
    let mut short = business(3);
    short.pop();
    let mut other_type = business(3);
    other_type[3] = 11;
    make::reseal(&mut other_type);
    for (bytes, code, sent, heard, tested) in [
        (business(3), 0, 100_000, 121_000, 0),
        (behind(2), 0, 100_000, 121_000, 0),
        (reset(9, 3), 0, 100_000, 121_000, 0),
        (test_request(3), 0, 121_000, 121_000, 0),
        (resend(3, 2, 0), 0, 121_000, 121_000, 0),
        (business(5), 0, 121_000, 121_000, 0),
        (bad_sum(business(3)), 4, 100_000, 100_000, 1),
        (short, 1, 100_000, 100_000, 1),
        (vec![], 1, 100_000, 100_000, 1),
        // The session stops, so the line is no longer timed.
        (other_type, 5, 0, 0, 0),
        (vec![7], 2, 0, 0, 0),
        (business(2), 30, 0, 0, 0),
        (framed(6, 3, &[], &[]), 0, 0, 0, 0),
    ] {
        let mut line = timed();
        line.tested = 1;
        let mut session = line.session.clone();
        let answer = line.step(121_000, &bytes);
        assert_eq!(answer.code, code);
        assert_eq!(answer, session.step(&bytes));
        assert_eq!(line.session, session);
        assert_eq!(clock(&line), (121_000, sent, heard, tested), "{:?}", bytes);
    }
}

/// Hearing gives the next silence a Test Request of its own.
#[test]
fn line_each_silence_is_tested_once() {
    let mut line = timed();
    assert_eq!(line.tick(120_000), tests(9, 9));
    assert_eq!(line.tick(125_000), NO_ACT);
    line.step(129_999, &business(3));
    assert_eq!(clock(&line), (129_999, 120_000, 129_999, 0));
    assert_eq!(line.tick(130_000), beats(10));
    assert_eq!(line.tick(149_999), tests(11, 11));
    line.step(150_000, &bad_sum(business(4)));
    assert_eq!(line.tick(159_998), NO_ACT);
    assert_eq!(line.tick(159_999), falls());
}

/// Only Live is timed, and both waits start when Live begins.
#[test]
fn line_until_live() {
    let mut line = Line::saved(US, 3, 8, 10).unwrap();
    assert_eq!(line.tick(5_000), NO_ACT);
    assert_eq!(line.step(6_000, &[]).code, 20);
    assert_eq!(line.connect(7_000, b"\x7F"), Err(refuse(9, 0)));
    assert_eq!(clock(&line), (7_000, 0, 0, 0));
    let logon_sent = line.connect(50_000, b"pw").unwrap();
    assert_eq!((logon_sent.number, logon_sent.next_expected), (8, 3));
    assert_eq!(clock(&line), (50_000, 0, 0, 0));
    assert_eq!(line.next_tick(), None);
    // However long the gateway's Logon takes.
    assert_eq!(line.tick(99_000), NO_ACT);
    assert_eq!(line.step(99_500, &bad_sum(logon(3, 9))).code, 4);
    assert_eq!(clock(&line), (99_500, 0, 0, 0));
    line.step(100_000, &logon(3, 9));
    assert_eq!(state(&line.session), (Phase::Live, 4, 9, 0));
    assert_eq!(clock(&line), (100_000, 100_000, 100_000, 0));
    assert_eq!(line.next_tick(), Some(110_000));
    // 21 on a Live line: its time counts, and nothing else.
    assert_eq!(line.connect(105_000, b""), Err(refuse(21, 0)));
    assert_eq!(clock(&line), (105_000, 100_000, 100_000, 0));
    line.drop(106_000);
    assert_eq!(clock(&line), (106_000, 0, 0, 0));
    assert_eq!(state(&line.session), (Phase::Down, 4, 9, 0));
    // A later connection begins anew, at the latest time where the clock went back.
    line.connect(90_000, b"").unwrap();
    line.step(90_001, &logon(4, 10));
    assert_eq!(clock(&line), (106_000, 106_000, 106_000, 0));
}

/// A time earlier than the latest given counts as that latest, in every call.
#[test]
fn line_clock_that_goes_back() {
    let mut line = timed();
    assert_eq!(line.tick(0), NO_ACT);
    assert_eq!(line, timed());
    line.step(108_000, &bad_sum(business(3)));
    line.step(101_000, &business(3));
    assert_eq!(clock(&line), (108_000, 100_000, 108_000, 0));
    line.step(0, &test_request(4));
    assert_eq!(clock(&line), (108_000, 108_000, 108_000, 0));
    assert_eq!(line.connect(1, b""), Err(refuse(21, 0)));
    assert_eq!(line.now, 108_000);
    line.step(118_000, &[]);
    assert_eq!(line.tick(3), beats(10));
    assert_eq!(clock(&line), (118_000, 118_000, 108_000, 0));
    line.drop(4);
    assert_eq!(line.now, 118_000);
}

/// Many messages in one call, all at one time.
#[test]
fn line_many_messages() {
    let lists = || (vec![UNLAID; ROOMY], vec![UNLAID; ROOMY]);
    let spoiled = bad_sum(business(3));
    for (messages, sent, heard, tested) in [
        (vec![], 100_000, 100_000, 1),
        (vec![spoiled.clone()], 100_000, 100_000, 1),
        (vec![spoiled.clone(), spoiled.clone()], 100_000, 100_000, 1),
        (vec![spoiled.clone(), business(3)], 100_000, 121_000, 0),
        (vec![business(3), spoiled.clone()], 100_000, 121_000, 0),
        (vec![business(3), test_request(4)], 121_000, 121_000, 0),
        (vec![business(3), business(2)], 0, 0, 0),
    ] {
        let mut line = timed();
        line.tested = 1;
        let mut singles = line.clone();
        let (mut rows, mut sends) = lists();
        line.steps(121_000, &messages.concat(), &mut rows, &mut sends);
        assert_eq!(clock(&line), (121_000, sent, heard, tested));
        singles.step(121_000, &[]);
        for message in &messages {
            singles.step(121_000, message);
        }
        assert_eq!(line, singles);
    }

    // The step that finds no slot is not done: its Heartbeat is not sent.
    let mut line = timed();
    let bytes = [business(3), test_request(4)].concat();
    let (mut rows, mut sends) = lists();
    let done = line.steps(121_000, &bytes, &mut rows[..A_ROW], &mut sends);
    assert_eq!((done.ended, done.sends), (Ended::NoSlot, 0));
    assert_eq!(clock(&line), (121_000, 100_000, 121_000, 0));

    // 11 and 20: the time counts, and nothing else.
    let mut line = timed();
    let done = line.steps(121_000, &bytes, &mut [], &mut sends);
    assert_eq!((done.refusal, done.sends), (11, 2));
    let told = Line {
        now: 121_000,
        ..timed()
    };
    assert_eq!(line, told);
    line.drop(121_000);
    let done = line.steps(121_001, &bytes, &mut rows, &mut sends);
    assert_eq!((done.refusal, clock(&line)), (20, (121_001, 0, 0, 0)));

    // Live begins within the call.
    let mut line = over(waiting(3, 9), 10, 100_000);
    let bytes = [logon(3, 9), business(4), bad_sum(business(5))].concat();
    line.steps(100_500, &bytes, &mut rows, &mut sends);
    assert_eq!(state(&line.session), (Phase::Live, 5, 9, 0));
    assert_eq!(clock(&line), (100_500, 100_500, 100_500, 0));
}

/// Near the last time there is: what would be due past it is never due.
#[test]
fn line_at_the_last_times() {
    const END: u64 = u64::MAX;
    for (heard, sent, tested, next) in [
        (END - 30_000, END - 10_000, 1, Some(END)),
        (END - 29_999, END - 9_999, 1, None),
        (END - 20_000, END - 9_999, 0, Some(END)),
        (END - 19_999, END - 9_999, 0, None),
        (END - 19_999, END - 10_000, 0, Some(END)),
        (END - 20_000, END - 9_999, 1, None),
        (END, END, 0, None),
        // Due since long.
        (0, 0, 0, Some(END)),
    ] {
        let mut line = timed();
        line.now = heard.max(sent);
        if heard == 0 {
            line.now = END;
        }
        (line.sent, line.heard, line.tested) = (sent, heard, tested);
        assert!(line.passes());
        assert_eq!(line.next_tick(), next, "{:?}", line);
        if line.now < END {
            assert_eq!(line.tick(END - 1), NO_ACT);
        }
        assert_eq!(line.tick(END) == NO_ACT, next.is_none());
        assert_eq!(line.now, END);
    }
}

/// The earliest of what is due, and not before the latest time.
#[test]
fn line_next_tick() {
    for (sent, heard, tested, now, next) in [
        (100_000, 100_000, 0, 100_000, 110_000),
        (115_000, 100_000, 0, 115_000, 120_000),
        (115_000, 100_000, 1, 115_000, 125_000),
        (125_000, 100_000, 1, 125_000, 130_000),
        (110_000, 100_000, 0, 110_000, 120_000),
        // Due already.
        (100_000, 100_000, 0, 110_000, 110_000),
        (100_000, 100_000, 0, 110_001, 110_001),
        (118_000, 100_000, 0, 125_000, 125_000),
        (118_000, 100_000, 1, 135_000, 135_000),
    ] {
        let mut line = timed();
        (line.sent, line.heard, line.tested, line.now) = (sent, heard, tested, now);
        assert_eq!(line.next_tick(), Some(next), "{:?}", line);
        assert_ne!(line.clone().tick(next), NO_ACT);
        if next > now {
            assert_eq!(line.clone().tick(next - 1), NO_ACT);
        }
    }
    for mut line in [timed(), over(waiting(3, 9), 10, 100_000)] {
        line.drop(100_000);
        assert_eq!(line.next_tick(), None);
    }
    assert_eq!(over(waiting(3, 9), 10, 100_000).next_tick(), None);
}

/// Each member on both sides of each of its bounds.
#[test]
fn line_from_outside() {
    let down = over(Session::saved(US, 3, 9).unwrap(), 10, 100_000);
    let waiting = over(waiting(3, 9), 10, 100_000);
    for line in [timed(), waiting, down] {
        assert!(line.passes());
        for (interval, good) in [
            (0, false),
            (1, true),
            (2, true),
            (59, true),
            (60, true),
            (61, false),
            (LAST, false),
        ] {
            let other = Line {
                interval,
                ..line.clone()
            };
            assert_eq!(other.passes(), good);
        }
        let is_live = line.is_live();
        for (tested, good) in [(0, true), (1, is_live), (2, false), (256, false)] {
            let other = Line {
                tested,
                ..line.clone()
            };
            assert_eq!(other.passes(), good);
        }
        for (since, good) in [
            (0, true),
            (1, is_live),
            (99_999, is_live),
            (100_000, is_live),
            (100_001, false),
            (u64::MAX, false),
        ] {
            let sent = Line {
                sent: since,
                ..line.clone()
            };
            let heard = Line {
                heard: since,
                ..line.clone()
            };
            assert_eq!(sent.passes(), good);
            assert_eq!(heard.passes(), good);
        }
        let at_0 = over(line.session.clone(), 10, 0);
        assert!(at_0.passes());
    }
}

/// Gap fills from E to b and from b to c leave the line as one from E to c, at that
/// time.
#[test]
fn line_two_gap_fills_as_one() {
    for m in [0, 4, 5, 6, 7, 8, 9] {
        let session = if m == 0 {
            live(3, 9)
        } else {
            with_hole(3, 9, m, 1)
        };
        for time in [90_000, 100_000, 125_000] {
            let mut at_once = over(session.clone(), 10, 100_000);
            at_once.tested = 1;
            let mut in_turn = at_once.clone();
            at_once.step(time, &gap_fill(3, 8));
            in_turn.step(time, &gap_fill(3, 6));
            in_turn.step(time, &gap_fill(6, 8));
            assert_eq!(in_turn, at_once);
        }
    }
}

/// Random days with clocks that stand, jump and go back: what the papers say of every
/// line, whatever is called.
#[test]
fn line_days() {
    let mut rng = Rng::new(21);
    let mut acts = [0u32; 4];
    let (mut used_up, mut begun, mut rows, mut sends) =
        (0, 0, vec![0; 10 * ROOMY], vec![0; 10 * ROOMY]);
    for _ in 0..3_000 {
        let start = make::hole_start(&mut rng);
        let interval = make::interval(&mut rng);
        let mut line = Line::saved(&start.comp_id, start.e, start.o, interval).unwrap();
        let mut time = make::first_time(&mut rng, interval);
        for _ in 0..30 {
            let before = line.clone();
            let mut session = line.session.clone();
            match (rng.below(10), session.phase) {
                (0, _) => {
                    line.drop(time);
                    session.drop();
                }
                (1..=8, Phase::Down) => {
                    assert_eq!(line.connect(time, b"pw"), session.connect(b"pw"));
                }
                (1..=4, Phase::Waiting) | (1..=2, Phase::Live) => {
                    let bytes = make::arrival(&mut rng, &session);
                    assert_eq!(line.step(time, &bytes), session.step(&bytes));
                }
                (5..=7, Phase::Waiting) | (3, Phase::Live) => {
                    let bytes = make::slice(&mut rng, &session, 3);
                    let done = line.steps(time, &bytes, &mut rows, &mut sends);
                    assert_eq!(done, session.steps(&bytes, &mut rows, &mut sends));
                }
                _ => {
                    let answer = line.tick(time);
                    acts[answer.act as usize] += 1;
                    used_up += (answer.refusal == 22) as u32;
                    let is_due = before.next_tick().map_or(false, |next| next <= line.now);
                    assert_eq!(answer != NO_ACT, is_due);
                    if answer.act == Act::Down || answer.refusal == 22 {
                        session.drop();
                    } else if answer != NO_ACT {
                        session.o += 1;
                    }
                    // A silence has one Test Request, so no Heartbeat is due between it
                    // and Down.
                    assert!(answer.act != Act::Heartbeat || before.tested == 0);
                }
            }
            // With the clock left out the line is the session.
            assert_eq!(line.session, session);
            assert_eq!(line.now, before.now.max(time));
            assert!(line.passes(), "{:?}", line);
            begun += (line.is_live() && !before.is_live()) as u32;
            time = make::time(&mut rng, &line);
        }
    }
    for count in acts.into_iter().chain([used_up, begun]) {
        assert!(count > 500, "{:?} {} {}", acts, used_up, begun);
    }
}

// ---- Random input; plain against reader, writer and session ----

#[test]
fn plain_sums_as_crc() {
    let mut rng = Rng::new(4);
    for count in 0..600 {
        let bytes = rng.bytes(count);
        assert_eq!(plain::crc32c(&bytes), crc::crc32c(&bytes));
    }
}

#[test]
fn plain_reads_as_reader() {
    let mut rng = Rng::new(5);
    let mut seen = [0u32; 11];
    for _ in 0..60_000 {
        let message_type = make::message_type(&mut rng);
        let number = rng.any_u32().max(1);
        let comp_id = make::comp_id(&mut rng);
        let good = make::message(&mut rng, message_type, number, &comp_id);
        assert_eq!(plain::read(&good), reader::read(&good));
        let mut bytes = make::spoil(&mut rng, &good);
        if rng.chance(20) {
            bytes = make::spoil(&mut rng, &bytes);
        }
        let answer = reader::read(&bytes);
        assert_eq!(plain::read(&bytes), answer, "{:?}", bytes);
        seen[answer.map_or_else(|r| r.number as usize, |_| 0)] += 1;
    }
    assert!(seen.iter().all(|&count| count > 0), "{:?}", seen);
}

/// The characters that a message's text has, if the reader takes it.
fn text_of(message: &[u8], text: Text) -> Result<&[u8], Refusal> {
    reader::read(message)?;
    match text {
        Text::CompId => Ok(reader::comp_id(message)),
        Text::At(position, _) => reader::ask_text(message, position as u32),
    }
}

/// The bytes before a text's null are a good text, by the name of its field.
fn is_good_text(name: &str, text: &[u8]) -> bool {
    text.iter().all(|&byte| match byte {
        32..=126 => true,
        128..=255 => name == "Text" || name == "Reason",
        _ => false,
    })
}

/// Every text of every type with every value of a character, read and written,
/// by the twin and by the plain side.
#[test]
fn every_text_with_every_character() {
    for message_type in 0..=types::LAST {
        for text in make::texts(message_type) {
            let is_comp_id = text == Text::CompId;
            let (name, refusal) = match text {
                Text::CompId => ("Comp ID", refuse(wire::BAD_HEADER, 0)),
                Text::At(position, field) => (field.name, refuse(wire::BAD_FIELD, position)),
            };
            for bytes in make::tried(text) {
                let end = bytes.iter().position(|&byte| byte == 0);
                let before = &bytes[..end.unwrap_or(bytes.len())];
                // A Comp ID is not empty, and the writer takes it without a null.
                let is_read = is_good_text(name, before) && !(is_comp_id && before.is_empty());
                let is_written = is_read && !(is_comp_id && end.is_some());
                let given = make::with_text(message_type, text, &bytes);
                let message = make::framed(&given);
                let read = if is_read { Ok(before) } else { Err(refusal) };
                assert_eq!(text_of(&message, text), read, "{:?}", given);
                assert_eq!(plain::read(&message), reader::read(&message));
                let written = written_with(&given, MOST).err();
                assert_eq!(written, (!is_written).then_some(refusal), "{:?}", given);
            }
        }
    }
}

/// The maker gives accented characters to the texts that may have them, and to no
/// others, and the reports that are measured have none.
#[test]
fn made_texts() {
    let mut rng = Rng::new(24);
    let is_accented = |byte: &u8| *byte >= 128;
    let mut accented = 0;
    for _ in 0..2_000 {
        let message_type = make::message_type(&mut rng);
        let message = make::message(&mut rng, message_type, 1, US);
        for text in make::texts(message_type) {
            let content = text_of(&message, text).unwrap_or_default();
            if content.iter().any(is_accented) {
                assert_eq!(text.allowed(), Allowed::Accented);
                accented += 1;
            }
        }
    }
    assert!(accented > 200, "{}", accented);
    for report in reports::reports(200) {
        for text in make::texts(types::EXECUTION_REPORT) {
            let content = text_of(&report, text).unwrap_or_default();
            assert!(!content.iter().any(is_accented));
        }
    }
}

/// A good message of some type, in half of the cases spoiled.
fn good_or_spoiled(rng: &mut Rng) -> Vec<u8> {
    let message_type = make::message_type(rng);
    let number = rng.any_u32().max(1);
    let comp_id = make::comp_id(rng);
    let good = make::message(rng, message_type, number, &comp_id);
    if rng.chance(50) {
        make::spoil(rng, &good)
    } else {
        good
    }
}

#[test]
fn plain_asks_as_reader() {
    let mut rng = Rng::new(9);
    let mut seen = [0u32; 15];
    for _ in 0..4_000 {
        let bytes = good_or_spoiled(&mut rng);
        for position in (0..70).chain([255, 256, 4_096, u32::MAX]) {
            let number = reader::ask_number(&bytes, position);
            assert_eq!(plain::ask_number(&bytes, position), number, "{:?}", bytes);
            let text = reader::ask_text(&bytes, position);
            assert_eq!(plain::ask_text(&bytes, position), text, "{:?}", bytes);
            // The same bytes of the caller, not only the same characters.
            let begin = |text: &[u8]| text.as_ptr();
            let same = plain::ask_text(&bytes, position).map(begin);
            assert_eq!(same, text.map(begin));
            seen[number.map_or_else(|r| r.number as usize, |_| 0)] += 1;
        }
    }
    for refusal in (0..=10).chain(13..=14) {
        assert!(seen[refusal] > 0, "{:?}", seen);
    }
}

#[test]
fn plain_lists_as_reader() {
    const BEFORE: u64 = 0xEEEE_EEEE_EEEE_EEEE;
    let mut rng = Rng::new(23);
    let mut seen = [0u32; wire::NO_ROOM as usize + 1];
    for _ in 0..6_000 {
        let bytes = good_or_spoiled(&mut rng);
        let needed = reader::list(&bytes, LIST).map_or(0, |(_, all)| A_FIELD * all.len());
        let too_small = needed.saturating_sub(1);
        for room in [needed, too_small, rng.index(needed + 1), LIST] {
            let answer = reader::list(&bytes, room);
            let (mut slow, mut fast) = ([BEFORE; LIST], [BEFORE; LIST]);
            if let Ok((_, fields)) = &answer {
                slow[..needed].copy_from_slice(&fields.concat());
            }
            let answer = answer.map(|(head, fields)| (head, fields.len()));
            let listed = plain::fields(&bytes, &mut fast[..room]);
            assert_eq!(listed, answer, "room {} {:?}", room, bytes);
            assert_eq!(fast, slow, "room {} {:?}", room, bytes);
            seen[answer.map_or_else(|r| r.number as usize, |_| 0)] += 1;
        }
    }
    assert!(seen.iter().all(|&count| count > 0), "{:?}", seen);
}

/// Spoils one thing of what a writer is given.
fn spoil_parts(
    rng: &mut Rng,
    head: &mut HeadValues,
    comp_id: &mut Vec<u8>,
    map: &mut [u8; MAP_WIDTH],
    body: &mut Vec<u8>,
) {
    match rng.below(10) {
        0 => head.message_type = rng.byte(),
        1 => head.number = 0,
        2 => head.poss_dup = rng.byte(),
        3 => head.poss_resend = rng.byte(),
        4 => {
            *comp_id = [&b""[..], b"ABCDEFGHIJKL", b"A\0", b"\x1f", b"A\x7f"][rng.index(5)].to_vec()
        }
        5 => {
            let width = if rng.chance(80) { 48 } else { 256 };
            let position = rng.index(width);
            map[position / 8] ^= 0x80 >> (position % 8);
        }
        6 => body.truncate(rng.index(body.len() + 1)),
        7 => {
            let more = 1 + rng.index(5_000);
            body.extend(rng.bytes(more));
        }
        _ if body.is_empty() => body.push(0),
        _ => {
            let at = rng.index(body.len());
            body[at] = rng.byte();
        }
    }
}

#[test]
fn plain_writes_as_writer() {
    let mut rng = Rng::new(11);
    let mut seen = [0u32; wire::NO_ROOM as usize + 1];
    for _ in 0..20_000 {
        let mut head = HeadValues {
            message_type: make::message_type(&mut rng),
            number: rng.any_u32().max(1),
            poss_dup: rng.below(2) as u8,
            poss_resend: rng.below(2) as u8,
        };
        let mut comp_id = make::comp_id(&mut rng);
        let (mut map, mut body) = make::map_and_body(&mut rng, head.message_type, &[]);
        if rng.chance(50) {
            spoil_parts(&mut rng, &mut head, &mut comp_id, &mut map, &mut body);
        }
        let (mut slow, mut fast) = ([0xEE; MOST], [0xEE; MOST]);
        let room = match writer::write(&head, &comp_id, &map, &body, &mut slow.clone()) {
            Ok(length) => [length - 1, length, rng.index(length), MOST][rng.index(4)],
            Err(_) => [0, MOST][rng.index(2)],
        };
        let answer = writer::write(&head, &comp_id, &map, &body, &mut slow[..room]);
        assert_eq!(
            plain::write(&head, &comp_id, &map, &body, &mut fast[..room]),
            answer,
            "{:?} {:?} {:?} {:?}",
            head,
            comp_id,
            map,
            body
        );
        assert_eq!(fast, slow, "{:?} {:?}", map, body);
        assert!(answer.is_ok() || fast == [0xEE; MOST]);
        seen[answer.map_or_else(|r| r.number as usize, |_| 0)] += 1;
    }
    for refusal in [0, 5, 6, 7, 8, 9, 10, 11] {
        assert!(seen[refusal] > 0, "{:?}", seen);
    }
}

#[test]
fn random_bytes_never_panic() {
    let mut rng = Rng::new(6);
    for _ in 0..30_000 {
        let count = rng.index(200);
        let mut bytes = rng.bytes(count);
        if count > 3 && rng.chance(90) {
            bytes[0] = 2;
            bytes[2] = 0;
            bytes[3] %= 12;
            make::reseal(&mut bytes);
        }
        assert_eq!(plain::read(&bytes), reader::read(&bytes));
        let position = rng.below(300) as u32;
        let _ = reader::ask_number(&bytes, position);
        let _ = reader::ask_text(&bytes, position);
        let listed = reader::list(&bytes, LIST).map(|(head, fields)| (head, fields.len()));
        assert_eq!(plain::fields(&bytes, &mut [0; LIST]), listed);
        let mut session = live(3, 4);
        session.step(&bytes);
        let mut map = [0; MAP_WIDTH];
        for byte in &mut map[..6] {
            *byte = rng.byte();
        }
        let head = HeadValues {
            message_type: rng.below(12) as u8,
            number: rng.below(3) as u32,
            poss_dup: rng.below(3) as u8,
            poss_resend: 0,
        };
        let written = writer::write(&head, US, &map, &bytes, &mut [0; 300]);
        assert_eq!(
            plain::write(&head, US, &map, &bytes, &mut [0; 300]),
            written
        );
        printed_by_both(&bytes);
    }
}

#[test]
fn plain_steps_as_session() {
    let mut rng = Rng::new(7);
    let mut codes = [0u32; 41];
    let mut rows = [0u32; 5];
    let mut two_sends = 0;
    for _ in 0..4_000 {
        let start = make::start(&mut rng);
        let mut slow = Session::saved(&start.comp_id, start.e, start.o).unwrap();
        let mut fast = plain::Session::saved(&start.comp_id, start.e, start.o).unwrap();
        for event in make::events(&mut rng, &start, 40) {
            match event {
                Event::Connect(password) => {
                    let answer = slow.connect(&password);
                    if let Err(refusal) = &answer {
                        codes[refusal.number as usize] += 1;
                    }
                    assert_eq!(fast.connect(&password), answer);
                }
                Event::Drop => {
                    slow.drop();
                    fast.drop();
                }
                Event::Lend(bytes) => {
                    let before = slow.clone();
                    let answer = slow.step(&bytes);
                    assert_eq!(fast.step(&bytes), answer, "{:?} {:?}", before, bytes);
                    codes[answer.code as usize] += 1;
                    rows[answer.row.sort as usize] += 1;
                    two_sends += (answer.sends[1] != Send::None) as u32;
                    for send in &answer.sends {
                        let numbers = send.numbers().unwrap_or_default();
                        assert_eq!(Send::of_numbers(numbers), Some(*send));
                        let sent = send.bytes(&start.comp_id).unwrap();
                        assert!(sent.is_empty() || reader::read(&sent).is_ok());
                    }
                }
            }
            is_same(&fast, &slow);
            assert!(slow.phase != Phase::Down || slow.m == 0);
        }
    }
    // The histories reach every code of a step or a connect.
    for code in [0, 1, 2, 3, 4, 5, 6, 7, 8, 9, 10, 20, 21, 22]
        .into_iter()
        .chain(30..=37)
    {
        assert!(codes[code] > 0, "code {} {:?}", code, codes);
    }
    assert!(rows.iter().all(|&count| count > 0), "{:?}", rows);
    assert!(two_sends > 0);
}

#[test]
fn plain_takes_the_same_comp_ids() {
    for comp_id in [
        &b""[..],
        b"A",
        b"ABCDEFGHIJK",
        b"ABCDEFGHIJKL",
        b"A\0B",
        b"A\x7f",
        b"A\x80",
        b"\xff",
        b" ~",
    ] {
        for (e, o) in [(0, 1), (1, 0), (1, 1), (LAST, LAST)] {
            assert_eq!(
                plain::Session::saved(comp_id, e, o).map(|s| (s.e, s.o, s.m, s.repeats)),
                Session::saved(comp_id, e, o).map(|s| (s.e, s.o, s.m, s.repeats))
            );
        }
    }
}

/// Histories of messages alone stay in step long enough to be of use.
#[test]
fn histories() {
    let mut rng = Rng::new(8);
    let mut steps = 0;
    for _ in 0..300 {
        let start = make::start(&mut rng);
        steps += make::history(&mut rng, &start, 60).len();
        let sheet = make::sheet(&mut rng, 20);
        assert!(daysheet(&sheet).starts_with(b"sheet=1\n"));
    }
    assert!(steps > 300 * 8, "{}", steps);
}
