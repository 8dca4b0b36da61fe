//! Times the C calls beside the second implementation on the same files and prints three tables.

#[path = "../tests/calls.rs"]
mod calls;
mod measured;
#[allow(dead_code)]
#[path = "../tests/racks/mod.rs"]
mod racks;
#[allow(dead_code)]
#[path = "../tests/second/mod.rs"]
mod second;
mod times;

use measured::{Frame, Measured};
use racks::{Rack, Rng};
use times::Times;

// Bytes that are kept though nothing uses them; the linker puts the library's code behind them.
std::arch::global_asm!(concat!(
    ".pushsection .text.before, \"axR\"\n.zero ",
    env!("BEFORE"),
    "\n.popsection"
));

const SEED: u64 = 7;

fn main() {
    print_racks();
    print_plans();
    print_growth();
}

/// The head of a table in which all columns but the first hold numbers.
fn print_head(title: &str, columns: &str) {
    println!("{title}\n");
    println!("| {columns} |");
    println!("|---|{}", "---:|".repeat(columns.matches('|').count()));
}

fn print_row(cells: &[String]) {
    let cells = cells.iter().map(|cell| match cell.as_str() {
        "" => " |".to_string(),
        cell => format!(" {cell} |"),
    });
    println!("|{}", cells.collect::<String>());
}

fn print_racks() {
    let timed = ["Planning", "Reading", "Worst step", "Longest walk"];
    let [planning, reading, step, walk] =
        timed.map(|name| format!("{name}: library | second | ratio"));
    print_head(
        "Racks of 256 cards, best times of many, in microseconds. A ratio is library / second.",
        &format!("Rack | Links | k | {planning} | {reading} | {step} | Hops | {walk}"),
    );
    measured::racks_of_256().iter().for_each(print_rack);
}

fn print_rack(measured: &Measured) {
    let links = measured.rack.links.len().to_string();
    let planning = times::planning(&measured.rack.bytes()).cells();
    let row = match measured.plan() {
        Some(plan) => {
            let reading = times::reading(&plan).cells();
            let step = longest(&measured.worst_steps(&plan)).cells();
            let walks = measured.longest_walks(&plan);
            let hops = walks[0].answer[1].to_string();
            let walk = longest(&walks).cells();
            let sizes = [measured.name.to_string(), links, plan[4].to_string()];
            [&sizes[..], &planning, &reading, &step, &[hops], &walk].concat()
        }
        None => {
            let reading = times::reading(&measured.plan_without_columns()).cells();
            let refused = format!("refused {}", measured.number);
            let sizes = [measured.name.to_string(), links, refused];
            let untimed = [(); 7].map(|_| String::new());
            [&sizes[..], &planning, &reading, &untimed].concat()
        }
    };
    print_row(&row);
}

/// The longest of the times of some walks, each made again and again.
fn longest(frames: &[Frame]) -> Times {
    let times = frames.iter().map(times::repeated_walk);
    times.reduce(Times::worse).expect("a frame")
}

fn print_plans() {
    println!();
    print_head(
        "Walks on the plans of a row in turn, in microseconds.",
        "Plans | Walks | Links | Hops | Library | Second | Ratio",
    );
    let rows = [
        measured::stars_in_turn(),
        vec![measured::stuck_at_hub()],
        measured::tangles_in_turn(),
        measured::tails_in_turn(),
        vec![measured::chain_behind_others()],
    ];
    for frames in rows {
        let Frame {
            name, plan, answer, ..
        } = &frames[0];
        let links = u16::from_le_bytes([plan[2], plan[3]]);
        let sizes = [
            frames.len().to_string(),
            links.to_string(),
            answer[1].to_string(),
        ];
        let times = match &frames[..] {
            [frame] => times::repeated_walk(frame).cells(),
            frames => times::walk_in_turn(frames).cells(),
        };
        print_row(&[&[name.to_string()], &sizes[..], &times].concat());
    }
}

/// Makes a rack of as many cards as a cube of these dimensions.
type Maker = fn(&mut Rng, usize) -> Rack;

fn print_growth() {
    println!();
    print_head(
        "How planning grows with the cards, in microseconds.",
        "Rack | Cards | Library | Second | Ratio",
    );
    let shapes: [(&str, Maker); 5] = [
        ("chain", |_, dimensions| racks::chain(1 << dimensions)),
        ("ring", |_, dimensions| racks::ring(1 << dimensions)),
        ("grid", |_, dimensions| {
            racks::grid(1 << (dimensions / 2), 1 << dimensions.div_ceil(2))
        }),
        ("cube", |_, dimensions| racks::cube(dimensions)),
        ("random tree", |rng, dimensions| {
            racks::tree(rng, 1 << dimensions)
        }),
    ];
    let rng = &mut Rng::new(SEED);
    for (name, make) in shapes {
        for dimensions in 5..=8 {
            let rack = make(rng, dimensions).shuffled(rng);
            let times = times::planning(&rack.bytes()).cells();
            let sizes = [name.to_string(), rack.cards.to_string()];
            print_row(&[&sizes[..], &times].concat());
        }
    }
}
