//! The garden's graph paper: a year of wet days at the dock. `sheet SAMPLES OUT.svg` measures, checks, and only then draws.

mod dock;
mod paper;
mod walk;
mod year;

// the test equipment, of which this program takes a part
#[allow(dead_code)]
#[path = "../src/bits.rs"]
mod bits;
#[allow(dead_code)]
#[path = "../src/library.rs"]
mod library;
#[allow(dead_code)]
#[path = "../src/random.rs"]
mod random;
#[allow(dead_code)]
#[path = "../src/stream.rs"]
mod stream;
#[allow(dead_code)]
#[path = "../src/writer.rs"]
mod writer;

use dock::{run, Line, Packer};
use paper::{draw, parted, Sheet, MOST};
use std::path::Path;
use walk::Walk;
use writer::Start;
use year::{year, Day, SEED};

fn main() {
    let args: Vec<String> = std::env::args().skip(1).collect();
    let result = match &args[..] {
        [samples, out] => sheet(Path::new(samples), Path::new(out)),
        _ => Err("sheet SAMPLES OUT.svg".to_string()),
    };
    if let Err(what) = result {
        eprintln!("sheet: {what}");
        std::process::exit(1);
    }
}

fn expect(ok: bool, what: &str) -> Result<(), String> {
    if ok {
        Ok(())
    } else {
        Err(format!("{what}; nothing was drawn"))
    }
}

fn sheet(samples: &Path, out: &Path) -> Result<(), String> {
    let walk = Walk::load(samples)?;
    expect(
        walk.master.len() <= MOST,
        "the walk is longer than the paper",
    )?;
    let days = year(walk.master.len(), walk.frame());
    tell_year(&walk, &days);
    let ours = run(&walk, &days, Packer::Ours)?;
    tell("our library", &ours);
    expect(ours.refused == 0, "our reader refused our writer's packets")?;
    expect(ours.differed == 0, "our line leaves zero")?;
    let second = run(&walk, &days, Packer::Second(Start::Oldest))?;
    tell("the second writer, by document 01", &second);
    expect(
        second.packets == ours.packets,
        "the second writer's bytes are not ours",
    )?;
    expect(second.differed == 0, "the second writer's line leaves zero")?;
    println!("its packets are ours, byte for byte");
    let slip = run(&walk, &days, Packer::Second(Start::Newest))?;
    tell("the second writer, adapting from the newest sample", &slip);
    expect(slip.differed > 0, "the slip shows nothing")?;
    let drawing = draw(&in_words(&walk, &days, &ours, &slip));
    std::fs::write(out, drawing).map_err(|e| format!("{}: {e}", out.display()))?;
    println!("drawn: {}", out.display());
    Ok(())
}

fn wet(days: &[Day]) -> usize {
    days.iter().filter(|day| day.cut.is_some()).count()
}

/// The last number of a line.
fn last(numbers: &[usize]) -> usize {
    numbers.last().copied().unwrap_or(0)
}

fn tell_year(walk: &Walk, days: &[Day]) {
    let tenths: u64 = days.iter().map(|day| day.rain).sum();
    let (from, to) = (walk.master.len(), days.last().map_or(0, |day| day.left));
    println!(
        "seed {SEED}: {} days, {} of them wet, {}.{} mm of rain; cuts take the walk from {} to {} samples",
        days.len(),
        wet(days),
        tenths / 10,
        tenths % 10,
        parted(from),
        parted(to)
    );
    println!(
        "the studio packs the walk with our library: the first {} packets of every line",
        from.div_ceil(walk.frame())
    );
}

fn tell(who: &str, line: &Line) {
    println!(
        "{who}: {} packets packed and read, {} refused; {} samples compared, {} differ; on the last day {}",
        parted(line.packets.len()),
        parted(line.refused),
        parted(line.compared),
        parted(line.differed),
        parted(last(&line.differ))
    );
}

fn in_words<'a>(walk: &Walk, days: &'a [Day], ours: &'a Line, slip: &'a Line) -> Sheet<'a> {
    Sheet {
        days,
        ours: &ours.differ,
        slip: &slip.differ,
        title: "Samples that differ from the studio master, over a year of rain",
        subtitle: "On every wet day the walk is unpacked, cut and packed again, always from the packets of the wet day before.",
        legend: [
            "all samples of the walk, which every cut makes shorter",
            "with document 01's slip of adapting from the newest sample (test equipment only)",
            "our library: zero on every day; a dot is a wet day",
        ],
        caption: caption(walk, days, ours, slip),
    }
}

/// What was measured, in lines as long as the paper is wide.
fn caption(walk: &Walk, days: &[Day], ours: &Line, slip: &Line) -> [String; 3] {
    let wet = wet(days);
    [
        format!(
            "Measured: {wet} wet days, so {wet} generations. Our writer packed {} packets and our reader read each of them, {} refused.",
            parted(ours.packets.len()),
            ours.refused
        ),
        format!(
            "{} samples were compared with the studio master, cut at the same places and never packed: {} differed.",
            parted(ours.compared),
            parted(ours.differed)
        ),
        format!(
            "Cuts left {} of {} samples. With the slip (test equipment's packets, our reader) {} of these differ at the year's end.",
            parted(days.last().map_or(0, |day| day.left)),
            parted(walk.master.len()),
            parted(last(&slip.differ))
        ),
    ]
}
