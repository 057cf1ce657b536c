//! The log of a job: of each sweep or tile a line that no pixel changes.

mod common;

use common::tool::{list_with, p6, plain, sweep, Folder, LIST, TABLE, TINY, WEIGHTS};
use common::{alike, Random};
use kyzgultam::{cut, pixtral_preprocess, preprocess_tile, PictureSettings, Refusal};
use std::fs::{self, Permissions};
use std::os::unix::fs::{symlink, PermissionsExt};
use std::process::{Command, Stdio};
use std::thread::sleep;
use std::time::Duration;

/// Means and deviations by which byte 0 is sample 0, and 255 is 10.
const ZERO: &str = ",mean=0,deviation=0.1";

fn bits(numbers: [f32; 3]) -> String {
    numbers.map(|x| format!("{:08x}", x.to_bits())).join("/")
}

fn front(s: &PictureSettings, height: usize, width: usize) -> String {
    let sizes = [s.patch_size, s.spatial_merge_size, s.image_size, s.resize_rule];
    let [patch, merge, image, rule] = sizes.map(|size| size.to_string());
    let (mean, deviation) = (bits(s.mean), bits(s.deviation));
    let settings = format!("patch={patch} merge={merge} image={image} rule={rule} mean={mean} deviation={deviation}");
    format!("{settings} height={height} width={width}")
}

fn number<T>(report: &Result<T, Refusal>) -> u32 {
    report.as_ref().err().map_or(0, |refusal| refusal.number())
}

/// The line that a sweep of these sides is to have: that of a black one.
fn line(index: usize, s: &PictureSettings, height: usize, width: usize) -> String {
    let black = vec![0; height * width * 3];
    let mut out = vec![0.0; s.patches_len(height, width).unwrap_or(0)];
    let report = pixtral_preprocess(&black, height, width, s, &mut out);
    let [h, w, floats] = report.map_or([0; 3], |cut| [cut.grid_h, cut.grid_w, cut.floats]);
    let sizes = format!("grid_h={h} grid_w={w} floats={floats}");
    format!("sweep={index} {} number={} {sizes}\n", front(s, height, width), number(&report))
}

/// The line of a sweep whose bytes are not there, by its number.
fn without(index: usize, s: &PictureSettings, height: usize, width: usize, number: u32) -> String {
    format!("sweep={index} {} number={number} grid_h=0 grid_w=0 floats=0\n", front(s, height, width))
}

/// The lines of a sweep's tiles: those of a black one.
fn tile_lines(index: usize, s: &PictureSettings, height: usize, width: usize) -> String {
    let black = vec![0; height * width * 3];
    let count = cut(height, width, s).map_or(1, |cut| cut.rows * cut.columns);
    let of = |tile: usize| {
        let mut out = vec![0.0; s.tile_len(height, width, tile).unwrap_or(0)];
        let report = preprocess_tile(&black, height, width, tile, s, &mut out);
        let t = report.map_or([0; 7], |t| [t.grid_h, t.grid_w, t.floats, t.top, t.left, t.height, t.width]);
        let [h, w, floats, top, left, own_h, own_w] = t;
        let sizes = format!("grid_h={h} grid_w={w} floats={floats}");
        let place = format!("top={top} left={left} tile_h={own_h} tile_w={own_w}");
        format!("sweep={index} tile={tile} {} number={} {sizes} {place}\n", front(s, height, width), number(&report))
    };
    (0..count).map(of).collect()
}

const SWEEP: &str = "sweep patch merge image rule mean deviation height width number grid_h grid_w floats";
const TILE: &str =
    "sweep tile patch merge image rule mean deviation height width number grid_h grid_w floats top left tile_h tile_w";

/// Whether a log has nothing but its form: each line the words of it, in their order, parted by single blanks, each
/// with a decimal without needless zeros, or with three patterns of eight small hex digits.
fn in_form(log: &[u8], form: &str) -> bool {
    let decimal = |text: &str| text.parse::<usize>().is_ok_and(|n| n.to_string() == text);
    let hex = |text: &str| u32::from_str_radix(text, 16).is_ok_and(|n| format!("{n:08x}") == text);
    let word = |(key, word): (&str, &str)| match word.split_once('=') {
        Some((name @ ("mean" | "deviation"), bits)) => {
            name == key && bits.split('/').count() == 3 && bits.split('/').all(hex)
        }
        Some((name, value)) => name == key && decimal(value),
        None => false,
    };
    let line = |line: &str| {
        line.split(' ').count() == form.split(' ').count() && form.split(' ').zip(line.split(' ')).all(word)
    };
    let text = std::str::from_utf8(log).unwrap_or("no text");
    text.is_empty() || text.strip_suffix('\n').is_some_and(|lines| lines.split('\n').all(line))
}

/// A sweep whose red is given by pixel, and whose other bytes are random.
fn with_red(folder: &Folder, name: &str, (height, width): (usize, usize), seed: u64, red: impl Fn(usize) -> u8) {
    let mut rgb = Random(seed).bytes(height * width * 3);
    rgb.iter_mut().step_by(3).enumerate().for_each(|(pixel, byte)| *byte = red(pixel));
    folder.put(name, &p6(height, width, &rgb));
}

/// Weights by which bright red overflows in the first sum, and black red adds nothing to it: with `ZERO` forward gives
/// 12 for the first alone.
fn red_overflows(folder: &Folder) {
    let mut weights = Random(6).floats(WEIGHTS, 0.3);
    for row in weights[..8 * 12].chunks_exact_mut(12) {
        row[..4].fill(1e38);
    }
    folder.put("w", &plain(&weights));
    folder.put("t", &plain(&Random(7).floats(2 * TABLE, 1.0)));
}

/// Runs kz: its status, and what it says of errors.
fn outcome(mut command: Command) -> (Option<i32>, String) {
    let output = command.output().unwrap();
    (output.status.code(), String::from_utf8(output.stderr).unwrap())
}

const SIDES: [(usize, usize); 3] = [(8, 12), (20, 9), (8, 12)];

/// Two lists of equal sides; the second sweep of the second list is bright in red at one pixel.
fn two_lists(folder: &Folder, sides: [(usize, usize); 3], bright: usize) -> [String; 2] {
    red_overflows(folder);
    for (i, sides) in sides.into_iter().enumerate() {
        with_red(folder, &format!("calm{i}.ppm"), sides, 10 + i as u64, |_| 0);
        let red = |pixel| if i == 1 && pixel == bright { 255 } else { 0 };
        with_red(folder, &format!("bright-patient-{i}.ppm"), sides, 20 + i as u64, red);
    }
    ["calm", "bright-patient-"].map(|name| [0, 1, 2].map(|i| format!("{name}{i}.ppm")).join(" "))
}

#[test]
fn no_pixel_changes_a_line() {
    let folder = Folder::new("log-equal");
    let lists = two_lists(&folder, SIDES, 100);
    let settings = alike(0.0, 0.1, TINY);
    let right: String = SIDES.iter().enumerate().map(|(i, (h, w))| line(i, &settings, *h, *w)).collect();
    let run = |list: &str, command: &str, log: &str, rest: &str| {
        let words = format!("{command} {list} -o out --log {log} {rest} {LIST}{ZERO}");
        let (status, errors) = outcome(folder.command(&words));
        assert_eq!(String::from_utf8(folder.get(log)).unwrap(), right, "{words}");
        (status, errors)
    };
    assert!(in_form(right.as_bytes(), SWEEP));
    let model = "--weights w --tables t";
    assert_eq!(run(&lists[0], "encode", "calm.log", model), (Some(0), String::new()));
    let (status, errors) = run(&lists[1], "encode", "bright.log", model);
    assert_eq!(status, Some(1), "{errors}");
    assert!(errors.starts_with("kz: bright-patient-1.ppm: refused, number 12: "), "{errors}");
    assert!(errors.ends_with("kz: 1 of 3 sweeps were refused\n"), "{errors}");
    assert_eq!(folder.names("out").len(), 5);
    assert_eq!(folder.get("calm.log"), folder.get("bright.log"));

    // Which files the first run left tells what forward refused: a second run does not.
    for (list, done) in lists.iter().zip([0, 1]) {
        let (status, errors) = run(list, "encode", &format!("skip{done}.log"), &format!("{model} --skip-existing"));
        assert_eq!((status, errors.contains("number 12")), (Some(done), done == 1), "{errors}");
        let (status, errors) = run(list, "encode", &format!("taken{done}.log"), model);
        assert_eq!((status, errors.contains("number 12")), (Some(1), done == 1), "{errors}");
        let (status, errors) = run(list, "encode", &format!("force{done}.log"), &format!("{model} --force"));
        assert_eq!((status, errors.contains("number 12")), (Some(done), done == 1), "{errors}");
        // Patches leave the same line as token vectors, and nobody refuses them.
        assert_eq!(run(list, "patches", &format!("patches{done}.log"), ""), (Some(0), String::new()));
    }
    // One sweep alone.
    let alone = line(0, &settings, 20, 9);
    for (i, status) in [0, 1].into_iter().enumerate() {
        let name = lists[i].split(' ').nth(1).unwrap();
        let words = format!("encode {name} -o alone --log alone{i}.log {model} {LIST}{ZERO}");
        assert_eq!(outcome(folder.command(&words)).0, Some(status));
        assert_eq!(folder.get(&format!("alone{i}.log")), alone.as_bytes());
    }
}

#[test]
fn no_pixel_changes_the_line_of_a_tile() {
    let folder = Folder::new("log-tiles");
    let sides = [(8, 12), (20, 37), (33, 5)];
    // The pixel at row 3, column 17 is in tile 1 of 6.
    let lists = two_lists(&folder, sides, 3 * 37 + 17);
    let settings = alike(0.0, 0.1, TINY);
    let right: String = sides.iter().enumerate().map(|(i, (h, w))| tile_lines(i, &settings, *h, *w)).collect();
    assert!(in_form(right.as_bytes(), TILE));
    assert_eq!(right.lines().count(), 1 + 6 + 3);
    let run = |list: &str, command: &str, log: &str, rest: &str| {
        let words = format!("{command} --tiles {list} -o out --log {log} {rest} {LIST}{ZERO}");
        let (status, errors) = outcome(folder.command(&words));
        assert_eq!(String::from_utf8(folder.get(log)).unwrap(), right, "{words}");
        (status, errors)
    };
    let model = "--weights w --tables t";
    assert_eq!(run(&lists[0], "encode", "calm.log", model), (Some(0), String::new()));
    let (status, errors) = run(&lists[1], "encode", "bright.log", model);
    assert_eq!(status, Some(1), "{errors}");
    assert!(errors.starts_with("kz: bright-patient-1.ppm: tile r00c01: refused, number 12: "), "{errors}");
    // Of the refused sweep only the first tile is there, and all are in the log.
    assert_eq!(folder.names("out").len(), 10 + 1 + 1 + 3);
    for (list, done) in lists.iter().zip([0, 1]) {
        let (status, errors) = run(list, "encode", &format!("skip{done}.log"), &format!("{model} --skip-existing"));
        assert_eq!((status, errors.contains("number 12")), (Some(done), done == 1), "{errors}");
        let (status, errors) = run(list, "encode", &format!("taken{done}.log"), model);
        assert_eq!(status, Some(1), "{errors}");
        assert_eq!(run(list, "patches", &format!("patches{done}.log"), ""), (Some(0), String::new()));
        assert_eq!(run(list, "patches", &format!("again{done}.log"), "--skip-existing"), (Some(0), String::new()));
    }
}

#[test]
fn a_log_has_only_the_words_of_its_form() {
    let folder = Folder::new("log-form");
    fs::create_dir(folder.path("patient-4711")).unwrap();
    let random = Random(3).bytes(40 * 24 * 3);
    folder.put("patient-4711/liver-left.ppm", &[b"P6 # liver-left\n24 40\n255\n", &random[..]].concat());
    folder.put("patient-4711/spleen.pgm", b"P5 8 8 255 no");
    let list = "patient-4711/liver-left.ppm patient-4711/spleen.pgm patient-4711/none.ppm";
    for (form, other, tiles) in [(SWEEP, TILE, ""), (TILE, SWEEP, "--tiles")] {
        for (i, settings) in
            ["", ",rule=2", ",mean=-0.5/1e-3/3,deviation=1e38", ",mean=inf", ",merge=5"].iter().enumerate()
        {
            let log = format!("job{tiles}{i}.log");
            let words = format!("encode {tiles} {list} -o clinic{tiles}{i} --log {log} {}", list_with(settings));
            assert_eq!(outcome(folder.command(&words)).0, Some(1));
            let log = folder.get(&log);
            assert!(in_form(&log, form) && !in_form(&log, other), "{}", String::from_utf8_lossy(&log));
        }
    }
    // What is a little beside the form is not in it.
    let log = String::from_utf8(folder.get("job0.log")).unwrap();
    assert!(log.starts_with("sweep=0 patch=2 ") && log.contains(" height=40 width=24 number=0 "), "{log}");
    for (from, to) in [
        ("sweep=0", "sweep=00"),
        ("sweep=0", "sweep=spleen"),
        ("sweep=0", "sweep=-0"),
        ("sweep=0 ", "sweep=0  "),
        (" number=0", " number=0 number=0"),
        (" number=0", ""),
        ("merge=2 image=16", "image=16 merge=2"),
        ("mean=3ef6813a/", "mean=3EF6813A/"),
        ("mean=3ef6813a/", "mean="),
        ("mean=3ef6813a/", "mean=ef6813a/"),
        ("\n", " \n"),
        ("\n", "\r\n"),
        ("\n", "\n\n"),
        ("\n", " name=spleen\n"),
    ] {
        let changed = log.replacen(from, to, 1);
        assert!(changed != log && !in_form(changed.as_bytes(), SWEEP), "{changed}");
    }
    assert!(!in_form(log.trim_end().as_bytes(), SWEEP) && !in_form(b"\n", SWEEP) && in_form(b"", SWEEP));
}

/// A sample above maxval refuses a picture for its pixels, so its line does not say so.
#[test]
fn a_sample_above_maxval_is_not_in_the_line() {
    let folder = Folder::new("log-maxval");
    for (name, value) in [("fine", 100), ("above", 101)] {
        for (i, channels) in [(5, 1), (6, 3)] {
            let mut samples = vec![7; 8 * 20 * channels];
            samples[8 * 20 * channels - 1] = value;
            folder.put(&format!("{name}{i}"), &[format!("P{i} 20 8 100\n").as_bytes(), &samples].concat());
        }
        for tiles in ["", "--tiles"] {
            let log = format!("{name}{tiles}.log");
            let words = format!("patches {name}5 {name}6 -o {name} --log {log} {tiles} {LIST}");
            let (status, errors) = outcome(folder.command(&words));
            assert_eq!(status, Some(i32::from(name == "above")), "{errors}");
            assert!(
                name == "fine" || errors.starts_with("kz: above5: has a sample of 101, above its maxval"),
                "{errors}"
            );
        }
    }
    assert!(folder.names("above").is_empty());
    for (tiles, right) in
        [("", [0, 1].map(|i| line(i, &TINY, 8, 20))), ("--tiles", [0, 1].map(|i| tile_lines(i, &TINY, 8, 20)))]
    {
        for name in ["fine", "above"] {
            assert_eq!(folder.get(&format!("{name}{tiles}.log")), right.concat().as_bytes());
        }
    }
}

/// Each place of the list has its line: with the sides of the header, 0 and 0 where there is none, and the number that
/// preprocess gives for them and the bytes that there are.
#[test]
fn a_line_for_each_place_of_the_list() {
    let folder = Folder::new("log-order");
    sweep(&folder, "a.ppm", 8, 12, 1);
    folder.put("text.ppm", b"P3 8 8 255 1 2 3");
    folder.put("wide.ppm", b"P6 8193 1 255 ");
    folder.put("flat.pgm", b"P5 9 0 255 ");
    folder.put("vast.pgm", b"P5 99999999999999999999999 1 255 ");
    folder.put("short.ppm", b"P6 8 4 255 no");
    folder.put("long.pgm", b"P5 1 1 255 12");
    folder.put("deep.ppm", b"P6 1 1 65535\n123456");
    fs::create_dir(folder.path("folder")).unwrap();
    sweep(&folder, "z.ppm", 40, 3, 2);
    let list = "none.ppm a.ppm text.ppm wide.ppm flat.pgm vast.pgm short.ppm long.pgm deep.ppm folder z.ppm";
    let sides = [
        (0, 0, 2),
        (8, 12, 0),
        (0, 0, 2),
        (1, 8193, 2),
        (0, 9, 2),
        (1, usize::MAX, 2),
        (4, 8, 3),
        (1, 1, 3),
        (0, 0, 2),
        (0, 0, 2),
        (40, 3, 0),
    ];
    let right: String = (sides.iter().enumerate())
        .map(|(i, (h, w, n))| if *n == 0 { line(i, &TINY, *h, *w) } else { without(i, &TINY, *h, *w, *n) })
        .collect();
    assert!(in_form(right.as_bytes(), SWEEP));
    for (command, log) in [("patches", "p.log"), ("encode", "e.log")] {
        let (status, errors) = outcome(folder.command(&format!("{command} {list} -o out --log {log} {LIST}")));
        assert_eq!(status, Some(1));
        assert!(errors.ends_with("kz: 9 of 11 sweeps were refused\n"), "{errors}");
        assert_eq!(String::from_utf8(folder.get(log)).unwrap(), right);
    }
    // Whether a sweep can still be read is no matter where its file is skipped, and shows in the line.
    fs::remove_file(folder.path("a.ppm")).unwrap();
    folder.done(&format!("patches a.ppm z.ppm -o out --log gone.log --skip-existing {LIST}"));
    let right = without(0, &TINY, 0, 0, 2) + &line(1, &TINY, 40, 3);
    assert_eq!(folder.get("gone.log"), right.as_bytes());
    // A tile's line likewise; a sweep without a cut has that of tile 0.
    let (_, errors) = outcome(folder.command(&format!("patches --tiles {list} -o out --log t.log {LIST}")));
    assert!(errors.ends_with("kz: 10 of 11 sweeps were refused\n"), "{errors}");
    let log = folder.get("t.log");
    assert!(in_form(&log, TILE));
    let log = String::from_utf8(log).unwrap();
    let zeros = "grid_h=0 grid_w=0 floats=0 top=0 left=0 tile_h=0 tile_w=0";
    let right: String = ([(0, 0, 2), (0, 0, 2)].into_iter().chain(sides[2..10].iter().copied()).enumerate())
        .map(|(i, (h, w, n))| format!("sweep={i} tile=0 {} number={n} {zeros}\n", front(&TINY, h, w)))
        .collect();
    assert_eq!(log, right + &tile_lines(10, &TINY, 40, 3));
    // One that is cut short has a line for each tile of its sides.
    folder.put("short.ppm", b"P6 17 4 255 no");
    folder.fails(1, &format!("patches --tiles short.ppm -o out --log two.log {LIST}"), &["short.ppm: is cut short"]);
    let right = [0, 1].map(|tile| format!("sweep=0 tile={tile} {} number=3 {zeros}\n", front(&TINY, 4, 17)));
    assert_eq!(folder.get("two.log"), right.concat().as_bytes());
}

#[test]
fn refused_settings_have_their_number() {
    let folder = Folder::new("log-settings");
    sweep(&folder, "a.ppm", 8, 12, 1);
    sweep(&folder, "b.ppm", 20, 37, 2);
    folder.put("c.ppm", b"P6 no");
    let (one, channel) = ("--settings: refused, number 1: ", "--settings: refused, number 19: ");
    for (i, (list, number, settings, words)) in [
        ("rule=3", 1, PictureSettings { resize_rule: 3, ..TINY }, one),
        ("patch=33,mean=nan", 1, PictureSettings { patch_size: 33, mean: [f32::NAN; 3], ..TINY }, one),
        ("mean=nan", 19, PictureSettings { mean: [f32::NAN; 3], ..TINY }, channel),
        ("deviation=0.2/0/-0", 19, PictureSettings { deviation: [0.2, 0.0, -0.0], ..TINY }, channel),
        ("image=3", 4, PictureSettings { image_size: 3, ..TINY }, "a.ppm: refused, number 4: "),
    ]
    .into_iter()
    .enumerate()
    {
        for command in ["patches", "encode"] {
            let log = format!("{command}{i}.log");
            let list = list_with(&format!(",{list}"));
            let run = |rest: &str| format!("{command} {rest} a.ppm b.ppm c.ppm -o out{i} {list}");
            folder.fails(1, &run(&format!("--log {log}")), &[words]);
            // Where the settings are refused, so is what is no picture.
            let none = if number == 4 { 2 } else { number };
            let right = [(8, 12, number), (20, 37, number), (0, 0, none)];
            let lines = |tiles: &str, rest: &str| -> String {
                let of = |(i, (h, w, n))| format!("sweep={i} {tiles}{} number={n} {rest}\n", front(&settings, h, w));
                right.into_iter().enumerate().map(of).collect()
            };
            let zeros = "grid_h=0 grid_w=0 floats=0";
            assert_eq!(String::from_utf8(folder.get(&log)).unwrap(), lines("", zeros));
            assert!(in_form(&folder.get(&log), SWEEP));
            folder.fails(1, &run(&format!("--tiles --log t{log}")), &[words]);
            let zeros = format!("{zeros} top=0 left=0 tile_h=0 tile_w=0");
            assert_eq!(String::from_utf8(folder.get(&format!("t{log}"))).unwrap(), lines("tile=0 ", &zeros));
        }
        assert!(folder.names(&format!("out{i}")).is_empty());
    }
    // What the encoder alone refuses is refused before there is a list, and no log is begun.
    let list = list_with(",heads=3");
    folder.fails(1, &format!("encode a.ppm -o out --log no.log {list}"), &["--settings: refused, number 1"]);
    folder.fails(1, &format!("encode a.ppm -o out --log no.log --weights none {LIST}"), &["none: cannot be read"]);
    assert!(!folder.path("no.log").exists());
}

#[test]
fn a_log_that_is_there_is_kept() {
    let folder = Folder::new("log-there");
    sweep(&folder, "a.ppm", 8, 12, 1);
    sweep(&folder, "b.ppm", 8, 12, 2);
    folder.put("job.log", b"precious\n");
    fs::set_permissions(folder.path("job.log"), Permissions::from_mode(0o640)).unwrap();
    for command in ["patches a.ppm", "encode a.ppm", "patches --tiles a.ppm", "patches a.ppm --skip-existing"] {
        let parts = ["job.log: is there already and was left as it is", "--force", "or give another --log"];
        folder.fails(1, &format!("{command} -o out --log job.log {LIST}"), &parts);
        folder.fails(1, &format!("{command} -o out --log job.log {LIST},rule=0"), &parts);
    }
    // Nothing was done.
    assert_eq!(folder.get("job.log"), b"precious\n");
    assert!(!folder.path("out").exists());
    // Forced it is made anew, with its mode; it may stand in the folder that is made.
    folder.done(&format!("patches a.ppm -o out --log job.log --force {LIST}"));
    assert_eq!(folder.get("job.log"), line(0, &TINY, 8, 12).as_bytes());
    assert_eq!(folder.path("job.log").metadata().unwrap().permissions().mode() & 0o7777, 0o640);
    folder.done(&format!("patches a.ppm -o new --log=new/job.log {LIST}"));
    assert_eq!(folder.get("new/job.log"), folder.get("job.log"));
    assert_eq!(folder.names("new"), ["a.patches.npy", "job.log"]);

    // What is no plain file is not written through, forced or not.
    assert!(Command::new("mkfifo").arg(folder.path("pipe")).status().unwrap().success());
    symlink("job.log", folder.path("link")).unwrap();
    for (name, part) in [
        ("pipe", "is a named pipe"),
        ("link", "is a symbolic link"),
        ("new", "is a folder"),
        ("/dev/null", "is a device"),
        ("no/such/job.log", "cannot be written"),
        ("a.ppm/job.log", "cannot be written"),
    ] {
        for force in ["", "--force"] {
            folder.fails(1, &format!("patches b.ppm -o out --log {name} {force} {LIST}"), &[name, part]);
        }
    }
    assert_eq!(folder.get("job.log"), line(0, &TINY, 8, 12).as_bytes());
    // Nor is a sweep of the list, or what has the ending of vectors, which a forced run would write there.
    let before = folder.get("a.ppm");
    for (name, part) in [
        ("a.ppm", "--log a.ppm is a sweep of the list"),
        ("./out/../a.ppm", "is a sweep of the list"),
        ("out/b.patches.npy", "has the ending of vectors"),
    ] {
        folder.fails(2, &format!("patches b.ppm a.ppm -o out --log {name} --force {LIST}"), &[part, "another name"]);
    }
    assert_eq!(folder.get("a.ppm"), before);
    assert_eq!(folder.names("out"), ["a.patches.npy"]);
    for (words, part) in [
        ("patches b.ppm -o out --log", "--log needs a value"),
        ("patches b.ppm -o out --log=", "--log needs a value"),
        ("patches b.ppm -o out --log --force", "--log needs a value"),
        ("encode b.ppm -o out --log x --log y", "--log is given twice"),
        ("restore out/a.patches.npy -o b --log x", "no option --log"),
        ("compare a.ppm b.ppm --log x", "no option --log"),
        ("bench --log x", "no option --log"),
        ("demo --log x", "no option --log"),
    ] {
        folder.fails(2, words, &[part]);
    }
    for words in ["--help", "patches --help", "encode --help"] {
        assert!(folder.done(words).contains("--log"), "{words}");
    }
}

/// Under limits on the length of a file, as on a disk that is full.
#[test]
fn a_log_that_cannot_be_written_stops_the_run() {
    let folder = Folder::new("log-full");
    let names: Vec<String> = (0..9).map(|i| format!("s{i}.ppm")).collect();
    for (name, seed) in names.iter().zip(1..) {
        sweep(&folder, name, 2, 2, seed);
    }
    let list = names.join(" ");
    for tiles in ["", "--tiles"] {
        let words = format!("patches {tiles} {list} -o out{tiles} --log job{tiles}.log {LIST}");
        let (status, errors) = outcome(folder.shell("trap '' XFSZ; ulimit -f 2; exec \"$@\"", &words));
        assert_eq!(status, Some(1), "{errors}");
        let part = format!("kz: job{tiles}.log: cannot be written: ");
        assert!(errors.starts_with(&part) && errors.contains("stopped") && errors.lines().count() == 1, "{errors}");
        // As many whole lines as fit, and as many files: the sweep without a line was not done.
        let log = folder.get(&format!("job{tiles}.log"));
        let (right, form): (fn(usize) -> String, _) = match tiles {
            "" => (|i| line(i, &TINY, 2, 2), SWEEP),
            _ => (|i| tile_lines(i, &TINY, 2, 2), TILE),
        };
        let count = log.iter().filter(|b| **b == b'\n').count();
        assert!((2..9).contains(&count), "{count}");
        assert_eq!(String::from_utf8(log.clone()).unwrap(), (0..count).map(right).collect::<String>());
        assert!(in_form(&log, form));
        assert_eq!(folder.names(&format!("out{tiles}")).len(), count);
        // The list goes on with another log, which has every line.
        folder.done(&words.replace("job", "next").replace("--log", "--skip-existing --log"));
        assert_eq!(folder.get(&format!("next{tiles}.log")), (0..9).map(right).collect::<String>().as_bytes());
        assert_eq!(folder.names(&format!("out{tiles}")).len(), 9);
    }
}

/// Where nothing can be written any more hangs on how many files forward left to write: the log has all lines.
#[test]
fn a_list_that_stops_has_all_lines() {
    let folder = Folder::new("log-stop");
    sweep(&folder, "a.ppm", 2, 2, 1);
    sweep(&folder, "b.ppm", 16, 40, 2);
    folder.put("c.ppm", b"P6 no");
    sweep(&folder, "d.ppm", 16, 16, 3);
    for tiles in ["", "--tiles"] {
        let words = format!("patches {tiles} a.ppm b.ppm c.ppm d.ppm -o out{tiles} --log job{tiles}.log {LIST}");
        let (status, errors) = outcome(folder.shell("trap '' XFSZ; ulimit -f 5; exec \"$@\"", &words));
        assert_eq!(status, Some(1), "{errors}");
        let lines: Vec<&str> = errors.lines().collect();
        assert!(lines.len() == 2 && lines[0].contains("b.") && lines[0].contains("cannot be written"), "{errors}");
        assert!(lines[1].starts_with("kz: stopped, with 3 of 4 sweeps still to do; "), "{errors}");
        assert_eq!(folder.names(&format!("out{tiles}")).len(), 1);
    }
    let right = [line(0, &TINY, 2, 2), line(1, &TINY, 16, 40), without(2, &TINY, 0, 0, 2), line(3, &TINY, 16, 16)];
    assert_eq!(folder.get("job.log"), right.concat().as_bytes());
    let log = String::from_utf8(folder.get("job--tiles.log")).unwrap();
    assert!(in_form(log.as_bytes(), TILE));
    let right = [tile_lines(0, &TINY, 2, 2), tile_lines(1, &TINY, 16, 40)].concat();
    assert!(log.starts_with(&right) && log.ends_with(&tile_lines(3, &TINY, 16, 16)), "{log}");
    assert_eq!(log.lines().count(), 1 + 3 + 1 + 1);
}

#[test]
fn a_run_that_is_killed_leaves_whole_lines() {
    let folder = Folder::new("log-killed");
    sweep(&folder, "a.ppm", 8, 12, 1);
    // Nobody writes to it: the run waits there.
    assert!(Command::new("mkfifo").arg(folder.path("b.ppm")).status().unwrap().success());
    let words = format!("encode a.ppm b.ppm -o out --log job.log {LIST}");
    let mut run = folder.command(&words).stdout(Stdio::null()).stderr(Stdio::null()).spawn().unwrap();
    let mut log = vec![];
    for _ in 0..3000 {
        log = fs::read(folder.path("job.log")).unwrap_or_default();
        if !log.is_empty() {
            break;
        }
        sleep(Duration::from_millis(10));
    }
    run.kill().unwrap();
    run.wait().unwrap();
    assert_eq!(String::from_utf8(log).unwrap(), line(0, &TINY, 8, 12));
    assert_eq!(folder.get("job.log"), line(0, &TINY, 8, 12).as_bytes());
}

/// A sweep from a pipe is read once, for its line and for its file.
#[test]
fn a_sweep_may_come_from_a_pipe() {
    let folder = Folder::new("log-pipe");
    sweep(&folder, "a.ppm", 20, 37, 1);
    for (tiles, right) in [("", line(0, &TINY, 20, 37)), ("--tiles", tile_lines(0, &TINY, 20, 37))] {
        let words = format!("patches {tiles} /dev/stdin -o out{tiles} --log job{tiles}.log {LIST}");
        assert_eq!(outcome(folder.shell("cat a.ppm | \"$@\"", &words)), (Some(0), String::new()));
        assert_eq!(folder.get(&format!("job{tiles}.log")), right.as_bytes());
    }
    folder.done(&format!("patches a.ppm -o right {LIST}"));
    folder.done(&format!("patches --tiles a.ppm -o right--tiles {LIST}"));
    assert_eq!(folder.get("out/stdin.patches.npy"), folder.get("right/a.patches.npy"));
    for name in folder.names("right--tiles") {
        let piped = folder.get(&format!("out--tiles/{}", name.replacen('a', "stdin", 1)));
        assert_eq!(piped, folder.get(&format!("right--tiles/{name}")));
    }
}

/// Where there is no memory for a sweep's bytes preprocess is lent none; where there is none for its patches, no room.
#[test]
fn memory_that_is_missing_has_a_number() {
    // An emulator needs more.
    if std::env::var_os("KZ_EMULATOR").is_some() {
        return;
    }
    let folder = Folder::new("log-memory");
    for (name, head, side) in [("large.pgm", "P5 2048 2048 255\n", 2048), ("largest.pgm", "P5 8192 8192 255\n", 8192)] {
        folder.put(name, head.as_bytes());
        fs::File::options().write(true).open(folder.path(name)).unwrap().set_len(17 + side * side).unwrap();
    }
    let settings = PictureSettings::new(1, 1, 2048);
    let words = "patches large.pgm largest.pgm -o out --log job.log --settings patch=1,merge=1,image=2048";
    let (status, errors) = outcome(folder.shell("ulimit -v 50000; exec \"$@\"", words));
    assert_eq!(status, Some(1));
    assert!(errors.contains("large.pgm: there is no memory for its patches"), "{errors}");
    assert!(errors.contains("largest.pgm: there is no memory for its 8192x8192 pixels"), "{errors}");
    let right = [without(0, &settings, 2048, 2048, 5), without(1, &settings, 8192, 8192, 3)].concat();
    assert_eq!(String::from_utf8(folder.get("job.log")).unwrap(), right);
}
