//! Ours beside alac 0.5.0.
//!   oracle compare N [SEED]              N random packets read, short ones exhaustively, and N passages packed; a table of each
//!   oracle replay WIDTH COOKIE PACKET    one packet, in hexadecimal
//!   oracle repack COOKIE SETTINGS PASSAGE BYTES SCRATCH    one passage, in hexadecimal, with so much lent
//!   oracle record N                      N of the original's answers, for the program `replay`
//!   oracle real FOLDER...                packets of FFmpeg's encoder, which oracle/real makes
//!   oracle bench                         nanoseconds a sample, and the stack that a call takes

mod bench;
mod bits;
mod cases;
mod compare;
mod ffmpeg;
mod library;
mod original;
mod ours;
mod pack;
mod passages;
mod random;
mod real;
mod record;
mod stack;
mod stream;
mod table;
mod writer;

use compare::case;
use pack::Pack;
use random::Random;
use stream::Stream;
use table::Table;

fn hex(bytes: &[u8]) -> String {
    bytes.iter().map(|b| format!("{b:02x}")).collect()
}

pub fn unhex(text: &str) -> Vec<u8> {
    (0..text.len() / 2).map(|i| u8::from_str_radix(&text[2 * i..2 * i + 2], 16).expect("hexadecimal")).collect()
}

/// 16-bit numbers, each in four digits; a dash for none.
fn hex_i16(numbers: &[i16]) -> String {
    if numbers.is_empty() { "-".to_string() } else { numbers.iter().map(|x| format!("{x:04x}")).collect() }
}

fn unhex_i16(text: &str) -> Vec<i16> {
    unhex(text).chunks(2).map(|b| i16::from_be_bytes([b[0], b[1]])).collect()
}

fn one(table: &mut Table, s: &Stream, packet: &[u8], wide: bool, short: (usize, usize)) {
    let result = if wide { case::<i32>(s, packet, short) } else { case::<i16>(s, packet, short) };
    match result {
        Ok(agreed) => table.add(&agreed),
        Err(what) => table.disagree(&format!(
            "{what}\n  replay: oracle replay {} {} {}",
            if wide { "i32" } else { "i16" },
            hex(&s.cookie()),
            hex(packet)
        )),
    }
}

fn random_case(table: &mut Table, r: &mut Random) {
    let mut s = Stream::random(r);
    if r.one_in(100) {
        s = s.spoil(r);
    }
    let mut packet = match r.below(12) {
        0 => cases::noise(r),
        _ if !s.accepted(true) => cases::noise(r),
        _ => cases::built(&s, r),
    };
    if r.one_in(4) {
        packet = cases::damaged(packet, r);
    }
    let short = match r.below(200) {
        0 => (1, 0),
        1 => (0, 1),
        2 => (r.below(5) as usize, r.below(5) as usize),
        _ => (0, 0),
    };
    let wide = s.bit_depth != 16 && !r.one_in(50) || r.one_in(2);
    one(table, &s, &packet, wide, short);
}

/// Every packet of up to two bytes, and every third byte after a few fronts.
fn short_packets(table: &mut Table) {
    let s = Stream { frame_length: 2, bit_depth: 16, pb: 40, mb: 10, kb: 14, num_channels: 1 };
    one(table, &s, &[], false, (0, 0));
    for a in 0..=255u8 {
        one(table, &s, &[a], false, (0, 0));
        for b in 0..=255u8 {
            one(table, &s, &[a, b], false, (0, 0));
            one(table, &s, &[0, 0, a, b], true, (0, 0));
        }
    }
}

fn compare(n: u64, seed: u64) -> bool {
    std::panic::set_hook(Box::new(|_| {}));
    let mut table = Table::default();
    short_packets(&mut table);
    cookies(&mut table, seed);
    let mut r = Random::new(seed);
    for i in 0..n {
        random_case(&mut table, &mut r);
        if table.disagreements >= 10 {
            println!("stopped after {i} random cases");
            break;
        }
    }
    table.print("packets", "accepted");
    let packed = passages_packed(n, seed);
    table.disagreements == 0 && packed
}

fn one_packed(table: &mut Table, p: &Pack) {
    match pack::case(p) {
        Ok(packed) => table.add_packed(&packed),
        Err(what) => table.disagree(&format!(
            "{what}\n  replay: oracle repack {} {} {} {} {}",
            if p.cookie.is_empty() { "-".to_string() } else { hex(&p.cookie) },
            hex_i16(&p.settings),
            hex_i16(&p.passage),
            p.bytes,
            p.scratch
        )),
    }
}

fn passages_packed(n: u64, seed: u64) -> bool {
    let mut table = Table::default();
    match pack::readings() {
        Ok(readings) => readings.iter().for_each(|p| one_packed(&mut table, p)),
        Err(what) => table.disagree(&what),
    }
    let mut r = Random::new(seed ^ 1919);
    for i in 0..n {
        one_packed(&mut table, &passages::random(&mut r));
        if table.disagreements >= 10 {
            println!("stopped after {i} passages");
            break;
        }
    }
    table.print("passages", "packed, read back");
    table.disagreements == 0
}

/// Cookies of every length to 60, with and without atoms.
fn cookies(table: &mut Table, seed: u64) {
    let mut r = Random::new(seed ^ 77);
    for i in 0..20_000u64 {
        let mut c: Vec<u8> = (0..i % 61).map(|_| r.next() as u8).collect();
        if c.len() > 20 && r.one_in(2) {
            c[4..8].copy_from_slice(if r.one_in(4) { b"alac" } else { b"frma" });
            if r.one_in(2) {
                c[16..20].copy_from_slice(b"alac");
            }
        }
        let mut fields = [7u64; 11];
        let number = ours::stream_info(&c, &mut fields);
        let ok = match original::getters(&c) {
            Ok(g) => number == 0 && [fields[10], fields[2], fields[6], fields[0], fields[0] * fields[6] % (1 << 32)] == g,
            Err(e) => number == e && fields == [7; 11],
        };
        if ok {
            table.cookies += 1;
        } else {
            table.disagree(&format!("cookie {}", hex(&c)));
        }
    }
}

fn main() {
    let args: Vec<String> = std::env::args().skip(1).collect();
    let number = |i: usize, other: u64| args.get(i).map_or(other, |a| a.parse().expect("a number"));
    let ok = match args.first().map(String::as_str) {
        Some("compare") => compare(number(1, 20_000), number(2, 1)),
        Some("replay") => replay(&args[1], &unhex(&args[2]), &unhex(&args[3])),
        Some("repack") => repack(&args[1..]),
        Some("real") => real::real(&args[1..]),
        Some("bench") => bench::bench(),
        Some("record") => record::record(number(1, 2_000)),
        _ => {
            eprintln!("oracle compare N [SEED] | replay WIDTH COOKIE PACKET | repack COOKIE SETTINGS PASSAGE BYTES SCRATCH | record N | real FOLDER... | bench");
            false
        }
    };
    std::process::exit(!ok as i32);
}

fn replay(width: &str, cookie: &[u8], packet: &[u8]) -> bool {
    let s = Stream::of(cookie).expect("a whole cookie");
    let result = if width == "i32" { case::<i32>(&s, packet, (0, 0)) } else { case::<i16>(&s, packet, (0, 0)) };
    match result {
        Ok(a) => println!("agreed: {} {}", a.number, a.difference.unwrap_or("")),
        Err(what) => println!("{what}"),
    }
    true
}

fn repack(args: &[String]) -> bool {
    let lent = |i: usize| args[i].parse().expect("a number");
    let p = Pack { cookie: unhex(&args[0]), settings: unhex_i16(&args[1]), passage: unhex_i16(&args[2]), bytes: lent(3), scratch: lent(4) };
    match pack::case(&p) {
        Ok(a) => println!("agreed: {}", a.number),
        Err(what) => println!("{what}"),
    }
    true
}
