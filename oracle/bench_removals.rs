//! The speed of removing a tile from a sheet, in the same process as that of painting: the two layers of a finished tile are
//! removed from the page of bench.rs, beside the paint calls that painted the same rows, and beside the floor, which copies
//! those rows from the background and fills the runs of the other tiles there, computed beforehand. Both ends of the page are
//! taken: behind the first tile all places of the sheet move down, behind the last none that is used.
//!
//! All must leave the same bytes as the original's `pixels`, else nothing is timed.

use crate::{
    bench::{by_runs, must, numbers, page, runs, Run, Scene, Way},
    original::Original,
    records::Answers,
    wunqaber::{self as library, NO_ROW_LEFT, SHEET_LENGTH},
};
use std::{hint::black_box, process::exit};

/// A tile of the page: the layer of its box, which that of its oval follows, and the sheets before its rows are painted and
/// when the page is finished.
struct Leaving {
    name: &'static str,
    layer: usize,
    unpainted: [i32; SHEET_LENGTH],
    finished: [i32; SHEET_LENGTH],
}

/// All layers from `from` up to but not `to`, painted to their ends.
fn paint(sheet: &mut [i32], from: usize, to: usize, canvas: &mut [u8]) {
    for layer in from..to {
        loop {
            let answer = library::sheet_paint(sheet, layer as u32, canvas);
            if answer == NO_ROW_LEFT {
                break;
            }
            must(answer, "sheet_paint");
        }
    }
}

/// The tile whose box is this layer. Layers below it are painted before it, and those above it after it.
fn leaving(name: &'static str, scene: &Scene, layer: usize) -> Leaving {
    let mut sheet = [0; SHEET_LENGTH];
    let mut canvas = vec![0; (scene.w * scene.h) as usize];
    must(library::sheet_open(scene.w as u32, scene.h as u32, &mut sheet), "sheet_open");
    for n in scene.figures.iter().map(numbers) {
        must(library::sheet_add(&mut sheet, &n.figure, &n.style), "sheet_add");
    }
    paint(&mut sheet, 0, layer, &mut canvas);
    let unpainted = sheet;
    paint(&mut sheet, layer, scene.figures.len(), &mut canvas);
    Leaving { name, layer, unpainted, finished: sheet }
}

fn remove(tile: &Leaving, canvas: &mut [u8], background: &[u8]) {
    let mut sheet = *black_box(&tile.finished);
    for layer in [tile.layer + 1, tile.layer] {
        must(library::sheet_remove(&mut sheet, layer as u32, canvas, background), "sheet_remove");
    }
}

/// The rows of the canvas on which the tile is, those of its box.
fn rows(scene: &Scene, tile: &Leaving) -> std::ops::Range<usize> {
    let (f, _) = &scene.figures[tile.layer];
    f.y as usize..(f.y + f.h) as usize
}

/// The page without the tile.
fn others(scene: &Scene, tile: &Leaving) -> Scene {
    let mut figures = scene.figures.clone();
    figures.drain(tile.layer..tile.layer + 2);
    Scene { figures, ..*scene }
}

fn copy_and_fill(scene: &Scene, tile: &Leaving, list: &[Run], canvas: &mut [u8], background: &[u8]) {
    let rows = rows(scene, tile);
    let bytes = rows.start * scene.w as usize..rows.end * scene.w as usize;
    canvas[bytes.clone()].copy_from_slice(&black_box(background)[bytes]);
    by_runs(list, canvas);
}

/// The paint calls first, then the removal, and the floor of it.
fn ways<'a>(scene: &'a Scene, tile: &'a Leaving, background: &'a [u8]) -> [Way<'a>; 3] {
    let seen = rows(scene, tile);
    let seen = seen.start * scene.w as usize..seen.end * scene.w as usize;
    let list: Vec<Run> = runs(&others(scene, tile)).into_iter().filter(|run| seen.contains(&run.start)).collect();
    let painted = move |canvas: &mut [u8]| {
        let mut sheet = *black_box(&tile.unpainted);
        paint(&mut sheet, tile.layer, tile.layer + 2, canvas);
    };
    [
        ("sheet_paint", Box::new(painted)),
        ("sheet_remove", Box::new(move |canvas| remove(tile, canvas, background))),
        ("floor", Box::new(move |canvas| copy_and_fill(scene, tile, &list, canvas, background))),
    ]
}

/// The name of the first way that leaves other bytes than `pixels` does: painting the tile on a canvas that has the layers below
/// it, and removing it from the finished page.
fn differs(scene: &Scene, tile: &Leaving, background: &[u8]) -> Option<&'static str> {
    let painted = |scene: &Scene, count: usize| {
        let mut bytes = background.to_vec();
        for (f, s) in &scene.figures[..count] {
            Original.paint(f, s, scene.w, scene.h, &mut bytes);
        }
        bytes
    };
    let (page, without) = (painted(scene, scene.figures.len()), others(scene, tile));
    let removed = painted(&without, without.figures.len());
    let wanted = [
        (painted(scene, tile.layer), painted(scene, tile.layer + 2)),
        (page.clone(), removed.clone()),
        (page, removed),
    ];
    ways(scene, tile, background).into_iter().zip(wanted).find_map(|((name, mut way), (mut canvas, after))| {
        way(&mut canvas);
        (canvas != after).then_some(name)
    })
}

/// The page, its two tiles, and a background whose bytes are all different from their neighbours.
fn page_and_tiles() -> (Scene, [Leaving; 2], Vec<u8>) {
    let scene = page();
    let tiles = [leaving("first", &scene, 0), leaving("last", &scene, scene.figures.len() - 2)];
    let background = (0..scene.w * scene.h).map(|i| (37 * i % 251) as u8).collect();
    (scene, tiles, background)
}

/// Ends the program where bytes differ; how many tiles were removed.
pub fn check() -> usize {
    let (scene, tiles, background) = page_and_tiles();
    for tile in &tiles {
        if let Some(way) = differs(&scene, tile, &background) {
            eprintln!("bench: the {} tile of the page: the bytes by {way} are not those by pixels", tile.name);
            exit(1);
        }
    }
    tiles.len()
}

/// The table.
pub fn table() {
    let (scene, tiles, background) = page_and_tiles();
    println!("| tile of the page | by | µs | / sheet_paint | / floor |");
    println!("|---|---|---|---|---|");
    for tile in &tiles {
        let times = crate::bench::times(ways(&scene, tile, &background).into(), background.len());
        let of = |way: &str| times.iter().find(|(name, _)| *name == way).unwrap().1;
        for (way, t) in &times {
            println!("| {} | {way} | {t:.2} | {:.2} | {:.2} |", tile.name, t / of("sheet_paint"), t / of("floor"));
        }
    }
}
