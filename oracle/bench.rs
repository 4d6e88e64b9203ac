//! The speed of the library beside that of the original, in one process: five scenes, each painted
//! by one call a figure through the C interface, by the original's `draw_styled` on a target that fills
//! rows and by its `pixels`, and by the floor, which is the runs of the styled rows, computed
//! beforehand, by slice fills alone. The page is also painted through a sheet, a row at a time.
//!
//! All of them must leave the same bytes, else nothing is timed. Then tiles are removed from the page (bench_removals.rs), and
//! files are read (bench_reads.rs). Built by build.sh with PROGRAM=bench.
//!
//!   bench            the tables
//!   bench check      the bytes alone; prints no times

use crate::{
    bench_reads, bench_removals,
    numbers::{figure_numbers, style_numbers},
    original::Original,
    records::{Answers, Figure, Kind, Style},
    wunqaber::{self as library, FIGURE_LENGTH, NO_ROW_LEFT, SHEET_LENGTH, STYLE_LENGTH},
};
use std::{
    hint::black_box,
    process::exit,
    time::{Duration, Instant},
};

/// How long one batch of calls takes, at least.
const BATCH: Duration = Duration::from_micros(400);
/// How often each way gets a batch; the best one counts.
const ROUNDS: usize = 400;

/// Figures from the lowest to the uppermost, on a canvas of `w` by `h`.
pub struct Scene {
    pub name: &'static str,
    pub w: i64,
    pub h: i64,
    pub figures: Vec<(Figure, Style)>,
    pub sheet: bool,
}

fn inside(width: i64, fill: u8) -> Style {
    Style {
        stroke: Some(40),
        fill: Some(fill),
        width,
        align: 0,
    }
}

fn oval(x: i64, y: i64, w: i64, h: i64) -> Figure {
    Figure {
        kind: Kind::Ellipse,
        x,
        y,
        w,
        h,
        radii: [(0, 0); 4],
    }
}

fn rounded(x: i64, y: i64, w: i64, h: i64, radius: i64) -> Figure {
    Figure {
        kind: Kind::Crate,
        radii: [(radius, radius); 4],
        ..oval(x, y, w, h)
    }
}

fn tile(x: i64, y: i64) -> [(Figure, Style); 2] {
    [
        (rounded(x, y, 64, 48, 8), inside(2, 220)),
        (oval(x + 20, y + 12, 24, 24), inside(2, 90)),
    ]
}

/// Eight tiles, four in a row.
pub fn page() -> Scene {
    let tiles = (0..8).flat_map(|i| tile(8 + 76 * (i % 4), 8 + 56 * (i / 4)));
    Scene {
        name: "page of 8 tiles",
        w: 308,
        h: 120,
        figures: tiles.collect(),
        sheet: true,
    }
}

fn scenes() -> Vec<Scene> {
    vec![
        Scene {
            name: "tile 64 x 48, oval 24 x 24",
            w: 64,
            h: 48,
            figures: tile(0, 0).to_vec(),
            sheet: false,
        },
        Scene {
            name: "box 300 x 200",
            w: 300,
            h: 200,
            figures: vec![(rounded(0, 0, 300, 200, 40), inside(5, 220))],
            sheet: false,
        },
        Scene {
            name: "ellipse 1000 x 1000",
            w: 1000,
            h: 1000,
            figures: vec![(oval(0, 0, 1000, 1000), inside(10, 220))],
            sheet: false,
        },
        Scene {
            name: "ellipse 200 x 180",
            w: 200,
            h: 180,
            figures: vec![(oval(0, 0, 200, 180), inside(5, 220))],
            sheet: false,
        },
        page(),
    ]
}

/// A figure and its style as the C interface takes them.
#[derive(Clone)]
pub struct Numbers {
    pub figure: [i32; FIGURE_LENGTH],
    pub style: [i32; STYLE_LENGTH],
}

pub fn numbers((f, s): &(Figure, Style)) -> Numbers {
    Numbers { figure: figure_numbers(f), style: style_numbers(s) }
}

/// Ends the program where a call of the library is refused.
pub fn must(answer: u32, call: &str) {
    if answer != 0 {
        eprintln!("bench: {call} answered {answer}");
        exit(1);
    }
}

/// The library, one call a figure.
fn one_call(w: i64, h: i64, figures: &[Numbers], canvas: &mut [u8]) {
    for n in figures {
        let n = black_box(n);
        must(library::paint_figure(&n.figure, &n.style, w as u32, h as u32, canvas), "paint_figure");
    }
}

/// The library, by a sheet: the figures are added, then each layer is painted to its end, a row a
/// call, the last of which finds no row left.
fn by_sheet(w: i64, h: i64, figures: &[Numbers], canvas: &mut [u8]) {
    let mut sheet = [0; SHEET_LENGTH];
    must(library::sheet_open(w as u32, h as u32, &mut sheet), "sheet_open");
    for n in figures {
        let n = black_box(n);
        must(library::sheet_add(&mut sheet, &n.figure, &n.style), "sheet_add");
    }
    for layer in 0..figures.len() as u32 {
        loop {
            let answer = library::sheet_paint(&mut sheet, layer, canvas);
            if answer == NO_ROW_LEFT {
                break;
            }
            must(answer, "sheet_paint");
        }
    }
}

fn by_draw_styled(scene: &Scene, canvas: &mut [u8]) {
    for (f, s) in &scene.figures {
        Original.draw(black_box(f), black_box(s), scene.w, scene.h, canvas);
    }
}

fn by_pixels(scene: &Scene, canvas: &mut [u8]) {
    for (f, s) in &scene.figures {
        Original.paint(black_box(f), black_box(s), scene.w, scene.h, canvas);
    }
}

/// A run of bytes of the canvas and its colour.
pub struct Run {
    pub start: usize,
    end: usize,
    colour: u8,
}

/// The runs of a scene within its canvas, those that show nothing left out.
pub fn runs(scene: &Scene) -> Vec<Run> {
    let mut list = Vec::new();
    for (f, s) in &scene.figures {
        for (y, ends) in Original.srows(f, s) {
            if !(0..scene.h).contains(&y) {
                continue;
            }
            for (pair, paint) in ends.chunks(2).zip([s.stroke, s.fill, s.stroke]) {
                let (start, end) = (pair[0].max(0), pair[1].min(scene.w));
                if let (true, Some(colour)) = (start < end, paint) {
                    let row = y * scene.w;
                    list.push(Run {
                        start: (row + start) as usize,
                        end: (row + end) as usize,
                        colour,
                    });
                }
            }
        }
    }
    list
}

pub fn by_runs(runs: &[Run], canvas: &mut [u8]) {
    for run in black_box(runs) {
        canvas[run.start..run.end].fill(run.colour);
    }
}

/// A way to fill a canvas, and its name.
pub type Way<'a> = (&'static str, Box<dyn FnMut(&mut [u8]) + 'a>);

/// The ways of painting a scene. The floor comes last, the library first.
fn ways(scene: &Scene) -> Vec<Way<'_>> {
    let figures: Vec<Numbers> = scene.figures.iter().map(numbers).collect();
    let list = runs(scene);
    let mut ways: Vec<Way> = Vec::new();
    let copy = figures.clone();
    ways.push(("one call", Box::new(move |c| one_call(scene.w, scene.h, &copy, c))));
    if scene.sheet {
        ways.push(("sheet", Box::new(move |c| by_sheet(scene.w, scene.h, &figures, c))));
    }
    ways.push(("draw_styled", Box::new(move |c| by_draw_styled(scene, c))));
    ways.push(("pixels", Box::new(move |c| by_pixels(scene, c))));
    ways.push(("floor", Box::new(move |c| by_runs(&list, c))));
    ways
}

/// The name of the first way whose bytes differ from those of `pixels`, on a canvas whose bytes are
/// all different from their neighbours before.
fn differs(scene: &Scene) -> Option<&'static str> {
    let blank: Vec<u8> = (0..scene.w * scene.h).map(|i| (37 * i % 251) as u8).collect();
    let mut expected = blank.clone();
    by_pixels(scene, &mut expected);
    for (name, mut paint) in ways(scene) {
        let mut canvas = blank.clone();
        paint(&mut canvas);
        if canvas != expected {
            return Some(name);
        }
    }
    None
}

/// Microseconds a call for each way: the best of many short batches, the ways taken in turn so that
/// all of them meet the same noise, on a canvas of so many bytes.
pub fn times(mut ways: Vec<Way>, length: usize) -> Vec<(&'static str, f64)> {
    let mut canvas = vec![0u8; length];
    let mut calls = Vec::new();
    for (_, paint) in &mut ways {
        let mut n = 1;
        loop {
            let start = Instant::now();
            for _ in 0..n {
                paint(black_box(&mut canvas));
            }
            if start.elapsed() >= BATCH {
                break;
            }
            n *= 2;
        }
        calls.push(n);
    }
    let mut best = vec![f64::INFINITY; ways.len()];
    for _ in 0..ROUNDS {
        for (i, (_, paint)) in ways.iter_mut().enumerate() {
            let start = Instant::now();
            for _ in 0..calls[i] {
                paint(black_box(&mut canvas));
            }
            let each = start.elapsed().as_secs_f64() * 1e6 / calls[i] as f64;
            best[i] = best[i].min(each);
        }
    }
    ways.iter().zip(best).map(|((name, _), t)| (*name, t)).collect()
}

pub fn main() {
    let scenes = scenes();
    for scene in &scenes {
        if let Some(way) = differs(scene) {
            eprintln!("bench: {}: the bytes by {way} are not those by pixels", scene.name);
            exit(1);
        }
    }
    let (tiles, files) = (bench_removals::check(), bench_reads::check());
    if std::env::args().nth(1).as_deref() == Some("check") {
        println!("bench: {} scenes, {tiles} tiles removed and {files} files, the bytes are equal", scenes.len());
        return;
    }
    println!("| scene | by | µs | / draw_styled | / pixels | / floor |");
    println!("|---|---|---|---|---|---|");
    for scene in &scenes {
        let times = times(ways(scene), (scene.w * scene.h) as usize);
        let of = |way: &str| times.iter().find(|(name, _)| *name == way).unwrap().1;
        for (way, t) in &times {
            println!(
                "| {} | {way} | {t:.2} | {:.2} | {:.3} | {:.2} |",
                scene.name,
                t / of("draw_styled"),
                t / of("pixels"),
                t / of("floor")
            );
        }
    }
    println!();
    bench_removals::table();
    println!();
    bench_reads::table();
}
