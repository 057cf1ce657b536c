//! The tool, as it is run: on files in a folder of its own.

mod common;

use common::tool::{list_with, npy, p6, plain, sweep, Folder, CONFIG, LIST, TABLE, TINY, WEIGHTS};
use common::{alike, expand, Random};
use kyzgultam::{pixtral_preprocess, restore, rope_axes, PictureSettings};
use std::fs;
use std::path::Path;

#[test]
fn help_fits_a_screen() {
    let folder = Folder::new("help");
    for words in
        ["--help", "-h", "help", "demo --help", "encode -h", "patches --help", "restore --help"].into_iter().chain([
            "salvage --help",
            "compare --help",
            "copies --help",
            "nearest --help",
            "config --help",
            "weights --help",
            "bench --help",
            "encode x.ppm --help",
        ])
    {
        let text = folder.done(words);
        assert!(text.starts_with("kz"), "{words}");
        assert!(text.lines().count() <= 24, "{words}");
        assert!(text.lines().all(|l| l.chars().count() < 80), "{words}");
        assert!(text.contains("rule") || words.starts_with("bench"), "{words}");
        let both = text.contains("mean") && text.contains("deviation");
        assert!(both || words.starts_with("demo"), "{words}");
    }
}

#[test]
fn version_is_the_headers() {
    let folder = Folder::new("version");
    let header = fs::read_to_string(Path::new(env!("CARGO_MANIFEST_DIR")).join("../include/kyzgultam.h")).unwrap();
    assert!(header.contains(&format!("\n#define KZ_VERSION \"{}\"\n", kyzgultam::VERSION)));
    for words in ["--version", "-V"] {
        // Level and kit follow, where the build knows them.
        let said = folder.done(words);
        let (first, rest) = said.split_once('\n').unwrap();
        assert_eq!(first, format!("kz {}", kyzgultam::VERSION));
        assert!(rest.lines().all(|line| line.starts_with("level ") || line.starts_with("kit ")), "{said}");
    }
}

#[test]
fn usage() {
    let folder = Folder::new("usage");
    sweep(&folder, "a.ppm", 8, 8, 1);
    fs::create_dir(folder.path("b")).unwrap();
    sweep(&folder, "b/a.ppm", 8, 8, 1);
    folder.put("b/a.patches", &[0; 4]);
    for (words, part) in [
        ("", "no command"),
        ("frobnicate", "no command frobnicate"),
        ("encode", "-o DIR is missing"),
        ("encode -o out", "no SWEEP.ppm"),
        ("encode a.ppm", "-o DIR is missing"),
        ("encode a.ppm -o", "-o needs a value"),
        ("encode a.ppm -o x -o y", "-o is given twice"),
        ("encode a.ppm -o out --size 4x4", "no option --size"),
        ("encode a.ppm -o out --forced", "no option --forced"),
        ("encode a.ppm -o out --force=yes", "no option --force=yes"),
        ("encode a.ppm -o out --force --skip-existing", "give one"),
        ("compare a.ppm a.ppm --skip-existing", "no option --skip-existing"),
        ("encode a.ppm -o out --settings patch", "--settings: patch: a list"),
        ("encode a.ppm -o out --settings patch=x", "--settings: patch=x"),
        ("encode a.ppm -o out --settings patch=-1", "--settings: patch=-1"),
        ("encode a.ppm -o out --settings patch=99999999999999999999", "--settings: patch=9"),
        ("encode a.ppm -o out --settings rule", "--settings: rule: a list"),
        ("patches a.ppm -o out --settings rule=", "--settings: rule=: a list"),
        ("compare a.ppm a.ppm --settings rule=two", "--settings: rule=two: a list"),
        ("restore a.patches -o out.ppm --settings rules=2", "keys: patch merge image rule mean deviation hidden"),
        ("encode a.ppm -o out --settings mean", "--settings: mean: a list"),
        ("patches a.ppm -o out --settings mean=", "--settings: mean=: a list"),
        ("patches a.ppm -o out --settings mean=grey", "--settings: mean=grey: a list"),
        ("patches a.ppm -o out --settings deviation=0.2/0.3", "--settings: deviation=0.2/0.3: a list"),
        ("compare a.ppm a.ppm --settings mean=1/2/3/4", "mean and deviation take one number, or three as 0.5/0.4/0.3"),
        ("restore a.patches -o out.ppm --settings deviation=1//3", "--settings: deviation=1//3: a list"),
        ("bench --settings mean=0.2,deviation=0,25x", "--settings: 25x: a list"),
        ("patches a.ppm -o out --settings std=0.25", "--settings: std=0.25: a list"),
        ("encode a.ppm -o out --settings colour=1", "--settings: colour=1"),
        ("encode a.ppm -o out --settings scale=wide", "--settings: scale=wide"),
        ("encode a.ppm -o out --settings bias=yes", "--settings: bias=yes"),
        ("encode a.ppm ./a.ppm -o out", "same file"),
        ("patches a.ppm", "-o DIR is missing"),
        ("patches -o out", "no SWEEP.ppm"),
        ("patches a.ppm -o out --weights w", "no option --weights"),
        ("restore -o out.ppm", "one FILE.patches"),
        ("restore a b -o out.ppm", "one FILE.patches"),
        ("restore a.patches", "-o OUT.ppm is missing"),
        ("restore b/a.patches -o out.ppm", "give --grid HxW"),
        ("restore a.patches -o out.ppm --grid 2", "--grid takes"),
        ("restore a.patches -o out.ppm --grid 2x", "--grid takes"),
        ("restore a.patches -o out.ppm --grid 2x2x2", "--grid takes"),
        ("salvage -o out.ppm", "salvage takes one FILE.patches.npy"),
        ("salvage a b -o out.ppm", "salvage takes one FILE.patches.npy"),
        ("salvage a.patches", "-o OUT.ppm is missing"),
        ("salvage b/a.patches -o out.ppm", "give --grid HxW"),
        ("salvage a.patches -o out.ppm --grid 2x", "--grid takes"),
        ("salvage a.patches -o out.ppm --tiles", "no option --tiles"),
        ("salvage a.patches -o out.ppm --map", "--map needs a value"),
        ("salvage a.patches -o out.ppm --all=yes", "no option --all=yes"),
        ("restore a.patches -o out.ppm --all", "no option --all"),
        ("restore a.patches -o out.ppm --map m.png", "no option --map"),
        ("compare a.ppm", "two files"),
        ("compare --tokens a.npy", "two files or more"),
        ("compare --tokens a.npy b.npy -o out.png", "files only"),
        ("compare --tokens a.npy b.npy --force", "files only"),
        ("encode a.ppm --tokens", "no option --tokens"),
        ("compare a.ppm a.ppm a.ppm", "two files"),
        ("bench now", "no files"),
        ("bench --quick --size 8x8", "--quick goes with no other option"),
        ("bench --quick=yes", "no option --quick=yes"),
        ("bench --large --size 8x8", "--large goes with no other option"),
        ("bench --large --quick", "give one"),
        ("bench --large=yes", "no option --large=yes"),
        ("bench --peer now", "no files"),
        ("bench --peer --large", "--peer goes with no other option but --quick"),
        ("bench --peer --size 8x8", "--peer goes with no other option but --quick"),
        ("bench --peer --quick --settings text=3", "goes with no other option"),
        ("bench --peer=yes", "no option --peer=yes"),
        ("demo --peer", "no option --peer"),
        ("demo --large", "no option --large"),
        ("demo --quick", "no option --quick"),
        ("demo now", "no files"),
        ("demo --settings patch=1", "no option --settings"),
    ] {
        folder.fails(2, words, &[part, "`kz --help`"]);
    }
    assert_eq!(folder.names("."), ["a.ppm", "b"]);
}

#[test]
fn patches_and_back() {
    let folder = Folder::new("back");
    for (height, width, name) in [(8, 16, "even"), (5, 11, "odd"), (40, 3, "long")] {
        let rgb = sweep(&folder, &format!("{name}.ppm"), height, width, 7);
        let mut patches = vec![0.0; TINY.patches_len(height, width).unwrap()];
        let cut = pixtral_preprocess(&rgb, height, width, &TINY, &mut patches).unwrap();
        let mut resized = vec![0; patches.len()];
        let size = restore(&patches, cut.grid_h, cut.grid_w, &TINY, &mut resized).unwrap();

        let file = format!("out/{name}.patches.npy");
        let said = folder.done(&format!("patches {name}.ppm -o out {LIST}"));
        let rule = if name == "long" { "; resized by rule 1" } else { "" };
        assert_eq!(said, format!("{file}: {}x{} patches of 12 floats{rule}\n", cut.grid_h, cut.grid_w));
        assert_eq!(folder.get(&file), npy([cut.grid_h, cut.grid_w, 12], &patches));

        folder.done(&format!("restore {file} -o {name}.back.ppm {LIST}"));
        assert_eq!(folder.get(&format!("{name}.back.ppm")), p6(size.height, size.width, &resized));
        if name == "even" {
            assert_eq!(resized, rgb);
        }
        // Another name, plain floats with the grid, and a grid that is said twice.
        let grid = format!("{}x{}", cut.grid_h, cut.grid_w);
        fs::rename(folder.path(&file), folder.path("renamed")).unwrap();
        folder.put("plain", &plain(&patches));
        for words in ["renamed".into(), format!("renamed --grid {grid}"), format!("plain --grid {grid}")] {
            folder.done(&format!("restore {words} --out={name}.again.ppm --force {LIST}"));
            assert_eq!(folder.get(&format!("{name}.again.ppm")), folder.get(&format!("{name}.back.ppm")));
        }
    }
    assert!(folder.names("out").is_empty());
}

#[test]
fn a_long_sweep_is_resized_by_its_rule() {
    let folder = Folder::new("rule");
    let mut rgb = sweep(&folder, "a.ppm", 12, 48, 7);
    // A pixel that both rules take: row 9, column 33, on its way to row 9 or 3, column 11.
    rgb[(9 * 48 + 33) * 3] ^= 1;
    folder.put("b.ppm", &p6(12, 48, &rgb));
    for (resize_rule, [h, w], place) in [(1, [6, 8], [4, 5]), (2, [2, 8], [1, 5])] {
        let settings = PictureSettings { resize_rule, ..TINY };
        let mut patches = vec![0.0; settings.patches_len(12, 48).unwrap()];
        pixtral_preprocess(&rgb, 12, 48, &settings, &mut patches).unwrap();
        let mut resized = vec![0; patches.len()];
        restore(&patches, h, w, &settings, &mut resized).unwrap();

        let (list, by) = (format!("{LIST},rule={resize_rule}"), format!("; resized by rule {resize_rule}\n"));
        let (file, count) = (format!("{resize_rule}/b.patches.npy"), h * w);
        let said = folder.done(&format!("patches b.ppm -o {resize_rule} {list}"));
        assert_eq!(said, format!("{file}: {h}x{w} patches of 12 floats{by}"));
        assert_eq!(folder.get(&file), npy([h, w, 12], &patches));
        let said = folder.done(&format!("encode b.ppm -o {resize_rule} {list}"));
        assert_eq!(said, format!("{resize_rule}/b.tokens.npy: {}x{} tokens of 3 floats{by}", h / 2, w / 2));

        // The way back needs no rule, and takes either.
        for list in [LIST.to_string(), format!("{LIST},rule=1"), format!("{LIST},rule=2")] {
            folder.done(&format!("restore {file} -o back.ppm --force {list}"));
            assert_eq!(folder.get("back.ppm"), p6(2 * h, 2 * w, &resized));
        }
        let said = folder.done(&format!("compare b.ppm b.ppm {list}"));
        assert_eq!(said, format!("{count} of {count} patches are equal{by}"));
        let said = folder.differ(&format!("compare a.ppm b.ppm -o map{resize_rule}.ppm {list}"));
        let first = format!("the first that differs is at row {}, column {} (from 0)", place[0], place[1]);
        assert!(said.starts_with(&format!("{} of {count} patches are equal; {first}{by}", count - 1)), "{said}");
        let map = folder.get(&format!("map{resize_rule}.ppm"));
        assert!(map.starts_with(format!("P6\n{} {}\n", 2 * w, 2 * h).as_bytes()));
    }
    // Without a rule it is 1. Where no side is above the image size the rules are alike, and none is named.
    folder.done(&format!("patches b.ppm -o none {LIST}"));
    assert_eq!(folder.get("none/b.patches.npy"), folder.get("1/b.patches.npy"));
    sweep(&folder, "whole.ppm", 5, 16, 3);
    for rule in [1, 2] {
        let said = folder.done(&format!("patches whole.ppm -o {rule} {LIST},rule={rule}"));
        assert_eq!(said, format!("{rule}/whole.patches.npy: 4x8 patches of 12 floats\n"));
    }
    assert_eq!(folder.get("1/whole.patches.npy"), folder.get("2/whole.patches.npy"));
    // One grid by rule 1, and two by rule 2.
    sweep(&folder, "square.ppm", 48, 48, 3);
    sweep(&folder, "tall.ppm", 48, 24, 3);
    let said = folder.differ(&format!("compare square.ppm tall.ppm {LIST}"));
    let both = "square.ppm is 48x48 and tall.ppm is 48x24: both were resized to 16x16 to be compared\n";
    assert!(said.ends_with(&format!("; resized by rule 1\n{both}")), "{said}");
    folder.fails(1, &format!("compare square.ppm tall.ppm {LIST},rule=2"), &["square.ppm", "8x8", "tall.ppm", "8x4"]);
}

#[test]
fn means_and_deviations() {
    let folder = Folder::new("means");
    let rgb = sweep(&folder, "a.ppm", 8, 12, 7);
    let cut = |settings: &PictureSettings| {
        let mut patches = vec![0.0; rgb.len()];
        pixtral_preprocess(&rgb, 8, 12, settings, &mut patches).unwrap();
        npy([4, 6, 12], &patches)
    };
    let own = PictureSettings { mean: [0.48, -0.5, 1.0], deviation: [-0.25, 30.0, 0.001], ..TINY };
    let half = PictureSettings { deviation: [0.25; 3], ..TINY };
    for (i, (list, settings)) in [
        ("mean=0.2,deviation=0.25", alike(0.2, 0.25, TINY)),
        ("deviation=.25,mean=2e-1", alike(0.2, 0.25, TINY)),
        ("mean=0.2/0.2/0.2,deviation=0.25/+0.25/0.25", alike(0.2, 0.25, TINY)),
        ("mean=0.48/-0.5/1,deviation=-0.25/3e1/0.001", own),
        ("mean=-0.2,deviation=-1e-30", alike(-0.2, -1e-30, TINY)),
        ("mean=0.2,deviation=1e38", alike(0.2, 1e38, TINY)),
        ("deviation=0.25", half),
        ("mean=0.48145466/0.4578275/0.40821073,deviation=0.26862954/0.26130258/0.27577711", TINY),
        ("rule=1", TINY),
    ]
    .into_iter()
    .enumerate()
    {
        let file = format!("{i}/a.patches.npy");
        folder.done(&format!("patches a.ppm -o {i} {LIST},{list}"));
        assert_eq!(folder.get(&file), cut(&settings), "{list}");
        folder.done(&format!("restore {file} -o back.ppm --force {LIST},{list}"));
        assert_eq!(folder.get("back.ppm"), folder.get("a.ppm"), "{list}");
        // With others than its own the file is no picture's.
        let others = if settings == TINY { "mean=0.2" } else { "rule=1" };
        let parts = [&file[..], "number 8", "damaged", "another mean= or deviation="];
        folder.fails(1, &format!("restore {file} -o other.ppm {LIST},{others}"), &parts);
        // Equal bytes have equal samples.
        let said = folder.done(&format!("compare a.ppm a.ppm -o map{i}.ppm {LIST},{list}"));
        assert!(said.starts_with("24 of 24 patches are equal\n"), "{said}");
        assert_eq!(folder.get(&format!("map{i}.ppm")), folder.get("map0.ppm"));
    }
    assert!(!folder.path("other.ppm").exists());
    // Token vectors are those of the patches.
    for (out, list) in [("grey", "mean=0.2,deviation=0.25"), ("own", "rule=1"), ("again", "deviation=0.25,mean=0.2")] {
        folder.done(&format!("encode a.ppm -o {out} {LIST},{list}"));
    }
    assert_eq!(folder.get("grey/a.tokens.npy"), folder.get("again/a.tokens.npy"));
    assert_ne!(folder.get("grey/a.tokens.npy"), folder.get("own/a.tokens.npy"));
}

#[test]
fn refused_means_and_deviations() {
    let folder = Folder::new("channel");
    sweep(&folder, "a.ppm", 8, 12, 7);
    sweep(&folder, "b.ppm", 8, 12, 8);
    folder.done(&format!("patches a.ppm -o . {LIST}"));
    let words =
        "kz: --settings: refused, number 19: a channel's samples are not all finite, or neither strictly rise nor \
                 strictly fall; give another mean= or deviation=, as mean=0.2,deviation=0.25, or leave both out\n";
    for list in [
        "deviation=0",
        "deviation=-0/0.2/0.2",
        "mean=nan",
        "mean=0.2/0.2/NaN",
        "mean=inf",
        "deviation=-inf",
        "deviation=0.2/1e-40/0.2",
        "mean=1e8",
        "mean=1e99",
        "mean=0.2/0.2/65600",
        "mean=0.2,deviation=1e-60",
    ] {
        for command in [
            "patches a.ppm b.ppm -o out",
            "encode a.ppm b.ppm -o out",
            "restore a.patches.npy -o out.ppm",
            "restore a.ppm --grid 3x5 -o out.ppm",
            "salvage a.patches.npy -o out.ppm --map out.png",
            "compare a.ppm b.ppm -o out.png",
            "bench --size 8x8",
        ] {
            // Said once, and before an image size that leaves no grid.
            for image in [16, 3] {
                let output = folder.kz(&format!("{command} {}", list_with(&format!(",image={image},{list}"))));
                let said = String::from_utf8(output.stderr).unwrap();
                assert_eq!((output.status.code(), &said[..]), (Some(1), words), "{command} {list}");
                assert!(output.stdout.is_empty(), "{command} {list}");
            }
        }
        // A setting that is not allowed comes first.
        for command in ["patches a.ppm -o out", "restore a.patches.npy -o out.ppm", "compare a.ppm b.ppm"] {
            folder.fails(1, &format!("{command} {LIST},{list},rule=3"), &["--settings: refused, number 1: "]);
        }
    }
    assert_eq!(folder.names("."), ["a.patches.npy", "a.ppm", "b.ppm"]);
}

#[test]
fn grey_is_three_alike() {
    let folder = Folder::new("grey");
    let grey = Random(3).bytes(6 * 9);
    let rgb: Vec<u8> = grey.iter().flat_map(|g| [*g; 3]).collect();
    folder.put("grey.pgm", &[b"P5 # grey\n9 6\n255\n", &grey[..]].concat());
    folder.put("colour.ppm", &p6(6, 9, &rgb));
    folder.done(&format!("patches grey.pgm colour.ppm -o out {LIST}"));
    assert_eq!(folder.get("out/grey.patches.npy"), folder.get("out/colour.patches.npy"));
    assert!(folder.done(&format!("compare grey.pgm colour.ppm {LIST}")).starts_with("24 of 24 patches are equal\n"));
}

#[test]
fn encode_is_forward() {
    let folder = Folder::new("encode");
    let rgb = sweep(&folder, "a.ppm", 8, 12, 5);
    let mut random = Random(6);
    let (weights, tables) = (random.floats(WEIGHTS, 0.3), random.floats(2 * TABLE, 1.0));
    folder.put("w", &plain(&weights));
    folder.put("t", &plain(&tables));
    let said = folder.done(&format!("encode a.ppm -o out --weights w --tables t {LIST}"));
    assert_eq!(said, "out/a.tokens.npy: 2x3 tokens of 3 floats\n");

    let settings = kyzgultam::EncoderSettings {
        picture: TINY,
        hidden_size: 8,
        num_heads: 2,
        head_dim: 4,
        num_layers: 1,
        intermediate_size: 5,
        text_hidden_size: 3,
        projector_bias: false,
        scaling: 0.5,
    };
    assert_eq!(settings.weights_len(), Ok(WEIGHTS));
    let mut patches = vec![0.0; 8 * 12 * 3];
    pixtral_preprocess(&rgb, 8, 12, &TINY, &mut patches).unwrap();
    let (cos, sin) = tables.split_at(TABLE);
    let mut scratch = vec![0.0; settings.scratch_len(4, 6).unwrap()];
    let mut out = vec![0.0; 18];
    kyzgultam::forward(&settings, &patches, 4, 6, &weights, cos, sin, &mut scratch, &mut out).unwrap();
    assert_eq!(folder.get("out/a.tokens.npy"), npy([2, 3, 3], &out));

    // The built-in weights and tables are the same each time.
    folder.done(&format!("encode a.ppm -o first {LIST}"));
    folder.done(&format!("encode a.ppm -o second {LIST}"));
    assert_eq!(folder.get("first/a.tokens.npy"), folder.get("second/a.tokens.npy"));
    assert_ne!(folder.get("first/a.tokens.npy"), folder.get("out/a.tokens.npy"));

    // The built-in tables are the small ones of a Pixtral; a file of the full ones that they stand for gives the same.
    let axes = rope_axes(8, 4, 10000.0).unwrap();
    let (cos, sin) = expand(&axes, 8, 4);
    folder.put("full", &plain(&[cos, sin].concat()));
    folder.done(&format!("encode a.ppm -o small --weights w {LIST}"));
    folder.done(&format!("encode a.ppm -o full_out --weights w --tables full {LIST}"));
    kyzgultam::forward_axes(&settings, &patches, 4, 6, &weights, &axes, &mut scratch, &mut out).unwrap();
    assert_eq!(folder.get("small/a.tokens.npy"), npy([2, 3, 3], &out));
    assert_eq!(folder.get("full_out/a.tokens.npy"), npy([2, 3, 3], &out));
    // A file of the small ones is refused.
    let small = [axes.row_cos, axes.row_sin, axes.column_cos, axes.column_sin].concat();
    folder.put("axes", &plain(&small));
    let parts = ["axes: ", "number 10", "128 bytes", "2048"];
    folder.fails(1, &format!("encode a.ppm -o out2 --weights w --tables axes {LIST}"), &parts);
}

/// What nothing but the settings decides has the same bits on every machine: weights, tables and scale of the built-in
/// model, seen in the token vectors of patches that are the same everywhere.
#[test]
fn built_in_bits() {
    let folder = Folder::new("bits");
    let hash = |bytes: Vec<u8>| {
        bytes.iter().fold(0xCBF2_9CE4_8422_2325u64, |h, b| (h ^ u64::from(*b)).wrapping_mul(0x0100_0000_01B3))
    };
    sweep(&folder, "a.ppm", 70, 98, 5);
    for (settings, right) in BUILT_IN {
        folder.done(&format!("encode a.ppm -o out --force --settings {settings}"));
        let found = hash(folder.get("out/a.tokens.npy"));
        assert_eq!(found, right, "{settings}: {found:#018x}");
    }
}

const BUILT_IN: [(&str, u64); 3] = [
    ("image=1540", 0x0120_0B0B_72E0_861B),
    ("image=224,hidden=72,heads=6,layers=1,bias=1", 0x596C_8689_E400_878E),
    ("patch=9,merge=3,hidden=140,heads=5", 0xAF94_55F5_ADED_A57F),
];

#[test]
fn encode_with_a_bias() {
    let folder = Folder::new("bias");
    sweep(&folder, "a.ppm", 8, 12, 5);
    let tokens = |out: &str, words: &str| {
        folder.done(&format!("encode a.ppm -o {out} {words}"));
        folder.get(&format!("{out}/a.tokens.npy"))
    };
    // Built in is none, and one from the seed where it is asked for.
    let none = tokens("none", LIST);
    assert_eq!(tokens("without", &format!("{LIST},bias=0")), none);
    assert_ne!(tokens("with", &format!("{LIST},bias=1")), none);

    // The weights of a file hold both, or neither.
    let weights = Random(6).floats(WEIGHTS + 6, 0.3);
    folder.put("w", &plain(&weights[..WEIGHTS]));
    folder.put("b", &plain(&weights));
    assert_ne!(tokens("w_out", &format!("--weights w {LIST}")), tokens("b_out", &format!("--weights b {LIST},bias=1")));
    let bytes = (4 * (WEIGHTS + 6)).to_string();
    folder.fails(1, &format!("encode a.ppm -o out --weights w {LIST},bias=1"), &["w: ", "number 9", &bytes]);
    folder.fails(1, &format!("encode a.ppm -o out --weights b {LIST}"), &["b: ", "number 9"]);
    for bias in [2, usize::MAX] {
        let refused = ["--settings: refused, number 1: ", "`kz encode --help`"];
        folder.fails(1, &format!("encode a.ppm -o out {LIST},bias={bias}"), &refused);
        folder.fails(1, &format!("bench --size 8x8 {LIST},bias={bias}"), &refused);
    }
    assert!(folder.done(&format!("bench --size 8x8 {LIST},bias=1")).contains(" with bias, "));
}

#[test]
fn refused_with_file_number_and_advice() {
    let folder = Folder::new("refused");
    sweep(&folder, "a.ppm", 8, 8, 1);
    let run = |words: &str, parts: &[&str]| folder.fails(1, words, parts);
    let list = |words: &str, parts: &[&str]| folder.fails(1, &format!("{words} {LIST}"), parts);

    folder.put("short.w", &[0; 4 * (WEIGHTS - 1)]);
    folder.put("odd.w", &[0; 4 * WEIGHTS + 1]);
    let bytes = (4 * WEIGHTS).to_string();
    list("encode a.ppm -o out --weights short.w", &["short.w: ", "number 9", &bytes]);
    list("encode a.ppm -o out --weights odd.w", &["odd.w: ", "number 9"]);
    list("encode a.ppm -o out --weights none.w", &["none.w: cannot be read"]);
    folder.put("short.t", &[0; 4 * (2 * TABLE - 1)]);
    list("encode a.ppm -o out --tables short.t", &["short.t: ", "number 10", "cosines"]);
    let mut nan = vec![0; 4 * WEIGHTS];
    nan[4 * 7..4 * 8].copy_from_slice(&f32::NAN.to_le_bytes());
    folder.put("nan.w", &nan);
    list("encode a.ppm -o out --weights nan.w", &["a.ppm: ", "number 12", "float 7 of nan.w"]);
    let mut infinite = vec![0; 8 * TABLE];
    infinite[4 * TABLE..4 * TABLE + 4].copy_from_slice(&f32::INFINITY.to_le_bytes());
    folder.put("inf.t", &infinite);
    list("encode a.ppm -o out --tables inf.t", &["number 12", &format!("float {TABLE} of inf.t")]);

    for settings in ["patch=0", "heads=0", "heads=3", "hidden=6,heads=1", "layers=49", "scale=nan", "scale=0"] {
        run(&format!("encode a.ppm -o out --settings {settings}"), &["--settings: refused, number 1"]);
    }
    run("patches a.ppm -o out --settings image=2049", &["--settings: refused, number 1"]);
    run("patches a.ppm -o out --settings image=27", &["a.ppm: ", "number 4", "image="]);
    run("encode a.ppm -o out --settings image=27", &["a.ppm: ", "number 4", "image="]);
    run("bench --size 8x8 --settings image=27", &["--settings: refused, number 4"]);
    run("compare a.ppm a.ppm --settings merge=5", &["--settings: refused, number 1"]);
    for rule in [0, 3, usize::MAX] {
        for words in ["encode a.ppm -o out", "patches a.ppm -o out", "compare a.ppm a.ppm", "bench --size 8x8"] {
            run(&format!("{words} {LIST},rule={rule}"), &["--settings: refused, number 1: ", "`kz encode --help`"]);
        }
    }
    folder.put("wide.ppm", b"P6 8193 1 255 ");
    folder.put("flat.pgm", b"P5 0 0 255 ");
    run("patches wide.ppm -o out", &["wide.ppm: ", "number 2", "1x8193"]);
    run("encode flat.pgm -o out", &["flat.pgm: ", "number 2", "0x0"]);

    folder.done(&format!("patches a.ppm -o . {LIST}"));
    let whole = folder.get("a.patches.npy");
    let floats = &whole[whole.len() - 4 * 4 * 4 * 12..];
    folder.put("plain", floats);
    list("restore plain -o b.ppm --grid 3x4", &["plain: ", "number 6", "3x4"]);
    list("restore plain -o b.ppm --grid 4x10", &["number 6"]);
    list("restore plain -o b.ppm --grid 2x4", &["number 7", "2x4", "--grid"]);
    run("restore a.patches.npy -o b.ppm --settings patch=33", &["--settings: refused, number 1"]);
    run(&format!("restore a.patches.npy -o b.ppm {LIST},rule=0"), &["--settings: refused, number 1"]);
    run(&format!("restore a.patches.npy -o b.ppm {LIST},rule=3"), &["--settings: refused, number 1"]);
    folder.put("cut", &floats[..floats.len() - 4]);
    list("restore cut -o b.ppm --grid 4x4", &["cut: ", "number 7"]);
    folder.put("torn", &floats[..floats.len() - 1]);
    list("restore torn -o b.ppm --grid 4x4", &["torn: ", "number 7"]);
    let mut bad = whole.clone();
    bad[whole.len() - floats.len() + 9] ^= 1;
    folder.put("bad.npy", &bad);
    list("restore bad.npy -o b.ppm", &["bad.npy: ", "number 8", "damaged", "`kz salvage`"]);

    sweep(&folder, "wider.ppm", 8, 12, 1);
    list("compare a.ppm wider.ppm", &["a.ppm", "wider.ppm", "4x4", "4x6"]);
    assert!(!folder.path("b.ppm").exists());
    assert!(!folder.path("out").exists() || folder.names("out").is_empty());
}

#[test]
fn damaged_pictures() {
    let folder = Folder::new("damaged");
    let whole = p6(4, 4, &[9; 48]);
    for len in 0..whole.len() {
        folder.put("cut.ppm", &whole[..len]);
        folder.fails(1, &format!("patches cut.ppm -o out {LIST}"), &["cut.ppm: "]);
    }
    folder.put("more.ppm", &[&whole[..], b"\n"].concat());
    folder.put("deep.ppm", b"P6 1 1 65535\n123456");
    folder.put("text.ppm", b"P3 1 1 255 1 2 3");
    folder.put("other.ppm", b"\x89PNG\r\n\x1a\n");
    for (name, part) in [
        ("more", "1 bytes after its picture"),
        ("deep", "two bytes"),
        ("text", "not P5 or P6"),
        ("other", "is cut short: it ends after 8 bytes"),
        ("none", "cannot be read"),
    ] {
        folder.fails(1, &format!("encode {name}.ppm -o out {LIST}"), &[&format!("{name}.ppm: "), part]);
    }
    assert!(folder.names("out").is_empty());
}

#[test]
fn nothing_is_overwritten() {
    let folder = Folder::new("force");
    sweep(&folder, "a.ppm", 8, 8, 1);
    sweep(&folder, "b.ppm", 8, 8, 2);
    folder.done(&format!("patches a.ppm -o . {LIST}"));
    fs::create_dir(folder.path("out")).unwrap();
    let commands = [
        ("encode a.ppm -o out", "out/a.tokens.npy"),
        ("patches a.ppm -o out", "out/a.patches.npy"),
        ("restore a.patches.npy -o out/back.ppm", "out/back.ppm"),
        ("salvage a.patches.npy -o out/saved.ppm", "out/saved.ppm"),
        ("compare a.ppm a.ppm -o out/map.png", "out/map.png"),
        ("compare a.ppm a.ppm -o out/map.ppm", "out/map.ppm"),
    ];
    for (words, file) in commands {
        folder.put(file, b"precious");
        folder.fails(1, &format!("{words} {LIST}"), &[file, "--force"]);
        assert_eq!(folder.get(file), b"precious");
        folder.done(&format!("{words} {LIST} --force"));
        assert_ne!(folder.get(file), b"precious");
    }
    // A folder in the way stays, forced or not.
    fs::create_dir(folder.path("taken.ppm")).unwrap();
    for force in ["", "--force"] {
        folder.fails(1, &format!("restore a.patches.npy -o taken.ppm {LIST} {force}"), &["taken.ppm"]);
    }
    folder.fails(1, &format!("restore a.patches.npy -o no/such/folder.ppm {LIST}"), &["no/such/folder.ppm"]);
    folder.fails(1, &format!("patches a.ppm -o a.ppm {LIST}"), &["a.ppm: this folder cannot be made"]);
    // Nothing that was begun is left.
    for names in [folder.names("."), folder.names("out")] {
        assert!(names.iter().all(|name| !name.starts_with('.')), "{names:?}");
    }
}

#[test]
fn a_list_goes_on_past_a_refused_sweep() {
    let folder = Folder::new("list");
    sweep(&folder, "a.ppm", 8, 8, 1);
    folder.put("broken.ppm", b"P6 8 8 255\nno");
    sweep(&folder, "c.ppm", 8, 8, 3);
    let output = folder.kz(&format!("encode a.ppm broken.ppm c.ppm -o out {LIST}"));
    assert_eq!(output.status.code(), Some(1));
    let said = String::from_utf8(output.stderr).unwrap();
    assert!(said.contains("kz: broken.ppm: is cut short"), "{said}");
    assert!(said.ends_with("kz: 1 of 3 sweeps were refused\n"), "{said}");
    assert_eq!(folder.names("out"), ["a.tokens.npy", "c.tokens.npy"]);
    assert_eq!(String::from_utf8(output.stdout).unwrap().lines().count(), 2);
}

#[test]
fn compare_finds_the_patches_that_differ() {
    let folder = Folder::new("compare");
    let mut rgb = sweep(&folder, "a.ppm", 8, 16, 4);
    // The pixels at row 3, column 9 and at row 7, column 0.
    rgb[(3 * 16 + 9) * 3] ^= 1;
    rgb[7 * 16 * 3 + 2] ^= 0x80;
    folder.put("b.ppm", &p6(8, 16, &rgb));
    let said = folder.differ(&format!("compare a.ppm b.ppm -o map.ppm {LIST}"));
    assert!(said.starts_with("30 of 32 patches are equal; the first that differs is at row 1, column 4 (from 0)\n"));
    let map = folder.get("map.ppm");
    let pixels = &map[map.len() - 8 * 16 * 3..];
    for (k, pixel) in pixels.chunks_exact(3).enumerate() {
        let place = (k / 16 / 2, k % 16 / 2);
        assert_eq!(pixel[0] > pixel[1], place == (1, 4) || place == (3, 0), "{place:?}");
    }
    assert_eq!(folder.done(&format!("compare a.ppm a.ppm {LIST}")), "32 of 32 patches are equal\n");
    // Pictures of other sides may be equal when they are resized, which is said.
    folder.put("small.ppm", &p6(7, 15, &[9; 7 * 15 * 3]));
    folder.put("large.ppm", &p6(8, 16, &[9; 8 * 16 * 3]));
    let said = folder.done(&format!("compare small.ppm large.ppm {LIST}"));
    let both = "small.ppm is 7x15 and large.ppm is 8x16: both were resized to 8x16 to be compared\n";
    assert_eq!(said, format!("32 of 32 patches are equal\n{both}"));
    // What was not compared is refused, and no difference.
    folder.fails(1, &format!("compare a.ppm none.ppm {LIST}"), &["none.ppm: cannot be read"]);
}

/// A picture is written as its name says.
#[test]
fn a_name_says_its_format() {
    let folder = Folder::new("format");
    let rgb = sweep(&folder, "a.ppm", 8, 12, 4);
    sweep(&folder, "b.ppm", 8, 12, 5);
    folder.done(&format!("patches a.ppm -o . {LIST}"));
    let begins = |name: &str, right: &[u8]| assert!(folder.get(name).starts_with(right), "{name}");
    for (name, right) in [("m.png", &b"\x89PNG"[..]), ("m.ppm", b"P6\n"), ("m2.PNG", b"\x89PNG"), ("m2.Ppm", b"P6\n")] {
        folder.differ(&format!("compare a.ppm b.ppm -o {name} {LIST}"));
        begins(name, right);
        folder.done(&format!("salvage a.patches.npy -o s{name} --map t{name} {LIST}"));
        begins(&format!("s{name}"), right);
        begins(&format!("t{name}"), right);
        folder.done(&format!("restore a.patches.npy -o r{name} {LIST}"));
        begins(&format!("r{name}"), right);
    }
    for name in ["r.other", "r"] {
        folder.done(&format!("restore a.patches.npy -o {name} {LIST}"));
        assert_eq!(folder.get(name), p6(8, 12, &rgb));
    }
    let said = folder.done(&format!("compare rm.png a.ppm {LIST}"));
    assert_eq!(said, "24 of 24 patches are equal\n");
    let before = folder.names(".");
    for name in ["m.jpg", "m", "m.pgm", "png"] {
        let part = format!("-o {name}: a picture is written as its name says, .png or .ppm");
        folder.fails(2, &format!("compare a.ppm b.ppm -o {name} {LIST}"), &[&part]);
        folder.fails(
            2,
            &format!("salvage a.patches.npy -o x.ppm --map {name} {LIST}"),
            &[&part.replace("-o", "--map")],
        );
    }
    assert_eq!(folder.names("."), before);
}

/// Sweeps of one name in two folders have files of their own.
#[test]
fn equal_names_in_two_folders() {
    let folder = Folder::new("folders");
    for name in ["one", "two"] {
        fs::create_dir(folder.path(name)).unwrap();
    }
    sweep(&folder, "one/a.ppm", 8, 8, 1);
    sweep(&folder, "two/a.ppm", 8, 12, 2);
    sweep(&folder, "two/b.ppm", 8, 8, 3);
    let list = "one/a.ppm two/a.ppm two/b.ppm";
    let said = folder.done(&format!("patches {list} -o out {LIST}"));
    assert!(said.starts_with("out/one.a.patches.npy: 4x4 patches of 12 floats\nout/two.a.patches.npy: 4x6 "), "{said}");
    assert_eq!(folder.names("out"), ["b.patches.npy", "one.a.patches.npy", "two.a.patches.npy"]);
    for (file, right) in [("one.a", "one/a"), ("two.a", "two/a"), ("b", "two/b")] {
        folder.done(&format!("restore out/{file}.patches.npy -o back.ppm --force {LIST}"));
        assert_eq!(folder.get("back.ppm"), folder.get(&format!("{right}.ppm")));
    }
    let said = folder.done(&format!("patches {list} -o out --skip-existing {LIST}"));
    assert_eq!(said.matches("skipped").count(), 3);
    // Tiles too, which restore puts together by these names.
    let small = list_with(",image=8");
    folder.done(&format!("patches --tiles {list} -o tiles {small}"));
    let tiles = "tiles/two.a.8x12.r00c00.patches.npy tiles/two.a.8x12.r00c01.patches.npy";
    folder.done(&format!("restore --tiles {tiles} -o joined.ppm {small}"));
    assert_eq!(folder.get("joined.ppm"), folder.get("two/a.ppm"));
    folder.fails(2, &format!("patches one/a.ppm one/./a.ppm -o out {LIST}"), &["would be written to the same file"]);
}

#[test]
fn compare_finds_the_nearest_earlier_sweep() {
    let folder = Folder::new("nearest");
    // Two vectors of three floats; b turns the second by a right angle, c both of them by none, d is of another shape.
    let a = [3.0, 0.0, 0.0, 0.0, 0.5, 0.0];
    folder.put("a.npy", &npy([1, 2, 3], &a));
    folder.put("b.npy", &npy([1, 2, 3], &[1.0, 0.0, 0.0, 0.0, 0.0, -7.0]));
    folder.put("c.npy", &npy([1, 2, 3], &a.map(|x| x * 4.0)));
    folder.put("d.npy", &npy([2, 1, 3], &a));
    folder.put("none.npy", &npy([1, 2, 3], &[0.0, 0.0, 0.0, 0.0, 1.0, f32::NAN]));
    let said = folder.done("compare --tokens a.npy b.npy c.npy d.npy none.npy c.npy b.npy");
    let rows: Vec<Vec<&str>> = said.lines().map(|line| line.split_whitespace().collect()).collect();
    assert_eq!(rows[0], ["sweep", "nearest", "earlier", "mean", "cosine"]);
    let right = [
        ["a.npy", "-", "-"],
        ["b.npy", "a.npy", "0.500000"],
        ["c.npy", "a.npy", "1.000000"],
        ["d.npy", "-", "-"],
        ["none.npy", "c.npy", "0.000000"],
        ["c.npy", "c.npy", "1.000000"],
        ["b.npy", "b.npy", "1.000000"],
    ];
    assert_eq!(rows[1..], right);
    // Of more than 64 the last 64 are kept: the first file is nearest to the 65th, and gone for the 66th.
    let other = "b.npy ".repeat(64);
    let said = folder.done(&format!("compare --tokens a.npy {other}"));
    assert!(said.lines().last().unwrap().contains("b.npy  b.npy"));
    let far = |n: usize| folder.done(&format!("compare --tokens a.npy {} a.npy", "d.npy ".repeat(n)));
    assert!(far(63).lines().last().unwrap().contains("1.000000"));
    assert!(!far(64).lines().last().unwrap().contains("1.000000"));
    folder.put("cut.npy", &npy([1, 2, 3], &a)[..140]);
    folder.put("empty.npy", &npy([0, 2, 3], &[]));
    folder.fails(1, "compare --tokens a.npy cut.npy", &["cut.npy", "is damaged"]);
    folder.fails(1, "compare --tokens a.npy empty.npy", &["empty.npy", "holds no token vectors"]);
    folder.fails(1, "compare --tokens a.npy away.npy", &["away.npy", "cannot be read"]);
    // Packed ones are widened.
    sweep(&folder, "a.ppm", 8, 8, 1);
    sweep(&folder, "b.ppm", 8, 8, 2);
    folder.done(&format!("encode a.ppm b.ppm -o wide {LIST}"));
    folder.done(&format!("encode a.ppm b.ppm -o packed --bf16 {LIST}"));
    let said =
        folder.done("compare --tokens wide/a.tokens.npy wide/b.tokens.npy packed/b.tokens.npy packed/a.tokens.npy");
    let rows: Vec<Vec<&str>> = said.lines().map(|line| line.split_whitespace().collect()).collect();
    assert_eq!((rows[3][1], rows[4][1]), ("wide/b.tokens.npy", "wide/a.tokens.npy"));
    assert!(rows[3][2].parse::<f64>().unwrap() > 0.999);
}

#[test]
fn names_after_two_dashes_are_files() {
    let folder = Folder::new("dashes");
    sweep(&folder, "-a.ppm", 8, 8, 1);
    folder.done(&format!("patches -o out {LIST} -- -a.ppm"));
    assert_eq!(folder.names("out"), ["-a.patches.npy"]);
}

#[test]
fn bench_times_every_call() {
    let folder = Folder::new("bench");
    let said = folder.done(&format!("bench --size 8x8 {LIST}"));
    for part in ["\nmean and deviation as in the Rust\n", "preprocess", "forward", "restore"] {
        assert!(said.contains(part), "{said}");
    }
    for (rule, grid) in [(1, " 4x8 "), (2, " 2x8 ")] {
        let said = folder.done(&format!("bench --size 8x48 {LIST},rule={rule}"));
        assert!(said.contains(&format!(", image 16, rule {rule}\n")) && said.contains(grid), "{said}");
    }
    let said = folder.done(&format!("bench --size 8x8 {LIST},mean=0.2,deviation=0.1/0.25/1e38"));
    assert!(said.contains("\nmean 0.2/0.2/0.2, deviation 0.1/0.25/1e38\n"), "{said}");
    by_choices(&said, "8x8");
    a_tile(&said);
    a_salvage(&said);
    small_tables(&said);
    a_pool(&said);
    a_load(&said);
}

/// The lines of a tile: two calls, each with two times and their ratio.
fn a_tile(said: &str) {
    let lines: Vec<&str> = said.lines().skip_while(|line| !line.starts_with("tile 0 of 3000x2000, ms ")).collect();
    let [_, cut, back, ..] = &lines[..] else { panic!("{said}") };
    times_and_ratio(cut, "preprocess 1540x1540 ");
    times_and_ratio(back, "restore 1540x1540 ");
}

/// The lines of salvage beside restore: no sample bad, and every one.
fn a_salvage(said: &str) {
    let lines: Vec<&str> = said.lines().skip_while(|line| !line.starts_with("salvage 1540x1540, ms ")).collect();
    let [_, none, every, ..] = &lines[..] else { panic!("{said}") };
    times_and_ratio(none, "no sample bad ");
    times_and_ratio(every, "every sample bad ");
}

/// The lines of forward by small tables beside full ones: two models, each with two times and the ratio of speeds.
fn small_tables(said: &str) {
    let lines: Vec<&str> = said.lines().skip_while(|line| !line.starts_with("forward by tables, ms ")).collect();
    let [_, built_in, wide, ..] = &lines[..] else { panic!("{said}") };
    for (line, name) in [(built_in, "hidden 64, grid 20x20 "), (wide, "hidden 1024, grid 8x8 ")] {
        assert!(line.starts_with(name) && line.ends_with(" of the speed"), "{line}");
    }
}

/// The lines of weights from a file: three dtypes, each with two times and the ratio of speeds, and a header's search.
fn a_load(said: &str) {
    let lines: Vec<&str> = said.lines().skip_while(|line| !line.starts_with("weights of 94 MB, ms ")).collect();
    let [_, f32, bf16, f16, header, ..] = &lines[..] else { panic!("{said}") };
    for (line, name) in [(f32, "F32 "), (bf16, "BF16 "), (f16, "F16 ")] {
        assert!(line.starts_with(name) && line.ends_with(" of the speed"), "{line}");
    }
    assert!(header.starts_with("header of 222, ms "), "{header}");
}

/// The lines of a pool: add with no slide and with one, and how long a find takes.
fn a_pool(said: &str) {
    let lines: Vec<&str> = said.lines().skip_while(|line| !line.starts_with("pool of 64 MB, ms ")).collect();
    let [_, behind, slid, find, ..] = &lines[..] else { panic!("{said}") };
    times_and_ratio(behind, "behind the last ");
    times_and_ratio(slid, "after a slide of all ");
    let each = find.strip_prefix("find in 64 keys, ns ").unwrap_or_else(|| panic!("{said}"));
    assert!(each.trim().parse::<f64>().unwrap() > 1.0, "{said}");
}

/// A name, two times and how many times as long the first is.
fn times_and_ratio(line: &str, name: &str) {
    let words: Vec<&str> = line.strip_prefix(name).unwrap_or_else(|| panic!("{line}")).split_whitespace().collect();
    let [one, two, ratio, "times", "as", "long"] = words[..] else { panic!("{line}") };
    let [one, two, ratio] = [one, two, ratio].map(|number| number.parse::<f64>().unwrap());
    // Of rounded times: half of a hundredth each, and half of a thousandth.
    assert!((one / two - ratio).abs() < 0.01 * (1.0 + ratio) / two.max(0.1) + 0.001, "{line}");
}

/// The last lines of the port's times: restore by three choices of means and deviations.
fn by_choices(said: &str, size: &str) {
    let lines: Vec<&str> = said.lines().collect();
    let [.., head, rust, grey, halving] = &lines[..] else { panic!("{said}") };
    assert!(head.starts_with(&format!("restore of {size} by mean and deviation ")), "{said}");
    for (line, name) in [(rust, "the Rust's "), (grey, "0.2 and 0.25, "), (halving, "0.2 and 1e38, ")] {
        assert!(line.starts_with(name) && line.ends_with(" MB of RGB a second") && line.contains(" ms "), "{said}");
    }
}

/// With the Rust's source, in the place of what KZ_RUST_SRC says if one is given: status, output and errors.
fn bench_with(folder: &Folder, source: Option<&Path>) -> (Option<i32>, String, String) {
    let mut command = folder.command("bench --quick");
    if let Some(source) = source {
        command.env("KZ_RUST_SRC", source);
    }
    let output = command.output().unwrap();
    let text = |bytes| String::from_utf8(bytes).unwrap();
    (output.status.code(), text(output.stdout), text(output.stderr))
}

// One test, since oracle/run has one place for what it makes.
#[test]
fn bench_beside_the_rust() {
    // An emulator's times say nothing (tests/rust says that this is skipped).
    if std::env::var_os("KZ_EMULATOR").is_some() {
        return;
    }
    let folder = Folder::new("beside");
    let skipped = "comparison with the Rust skipped";
    let (status, said, errors) = bench_with(&folder, None);
    assert_eq!(status, Some(0), "{errors}");
    if errors.contains(skipped) {
        eprint!("bench_beside_the_rust: {errors}");
    } else {
        let parts = ["preprocess 1540x1540", "restore 1540x1540", "forward 4x4", "times as fast", "G/s"];
        for part in parts.into_iter().chain(["stages of 8x8", "share", "growth", "every answer has the Rust's bits"]) {
            assert!(said.contains(part), "{part:?} is not in {said}");
        }
        a_tile(&said);
        a_salvage(&said);
        small_tables(&said);
        a_pool(&said);
        a_load(&said);
    }
    // Without the source the port is timed alone.
    let (status, said, errors) = bench_with(&folder, Some(&folder.path("none")));
    assert_eq!(status, Some(0), "{errors}");
    assert!(errors.contains(skipped), "{errors}");
    assert!(said.starts_with("hidden 64, ") && said.contains("1540x1540   110x110   restore"), "{said}");
    by_choices(&said, "1540x1540");
    a_tile(&said);
    a_salvage(&said);
    small_tables(&said);
    a_pool(&said);
    a_load(&said);
    // With a source that is another, oracle/run fails, and kz says so.
    fs::create_dir_all(folder.path("empty/crates/vision/src")).unwrap();
    for name in ["pixtral.rs", "image_process.rs"] {
        folder.put(&format!("empty/crates/vision/src/{name}"), b"");
    }
    let (status, _, errors) = bench_with(&folder, Some(&folder.path("empty")));
    assert_eq!(status, Some(1), "{errors}");
    let last = errors.lines().last().unwrap();
    assert!(last.starts_with("kz: ") && last.contains("oracle/run: picture ended with exit status"), "{errors}");
}

/// Sides and colour type of a PNG.
fn png_head(file: &[u8]) -> (u32, u32, u8) {
    assert_eq!(file[..8], *b"\x89PNG\r\n\x1a\n");
    assert_eq!(file[file.len() - 8..file.len() - 4], *b"IEND");
    let side = |at: usize| u32::from_be_bytes(file[at..at + 4].try_into().unwrap());
    (side(20), side(16), file[25])
}

#[test]
fn demo() {
    let folder = Folder::new("demo");
    let said = folder.done("demo -o d");
    assert!(said.contains("1728 patches: identical to resized.png"), "{said}");
    let names = ["oversize.ppm", "overview.png", "panorama.ppm", "resized.png", "restored.png", "rules.png"];
    assert_eq!(folder.names("d"), [&names[..], &["similarity.png", "sweep.png", "sweep.ppm", "tiles.png"]].concat());
    assert_eq!(png_head(&folder.get("d/sweep.png")), (490, 650, 0));
    assert_eq!(png_head(&folder.get("d/resized.png")), (504, 672, 0));
    assert_eq!(folder.get("d/restored.png"), folder.get("d/resized.png"));
    assert_eq!(png_head(&folder.get("d/similarity.png")), (504, 672, 2));
    folder.fails(1, "demo -o d", &["d/sweep.png", "--force"]);
    // Three panels of half the size, each below two lines and above one.
    let (one, two) = (27, 49);
    assert_eq!(png_head(&folder.get("d/overview.png")), (two + 252 + one, 3 * 336 + 2 * 6, 2));
    // Two pictures of one width, each below a line.
    assert!(said.contains("by rule 1 420x560, squashed; by rule 2 140x560, in its shape"), "{said}");
    assert_eq!(png_head(&folder.get("d/rules.png")), (one + 420 + one + 140, 560, 0));
    // A sweep cut into tiles, with its padding, and joined again, which is narrower by the padding.
    assert!(said.contains("2x4 tiles of at most 168x168, joined again: identical to oversize.ppm"), "{said}");
    assert_eq!(png_head(&folder.get("d/tiles.png")), (two + 308 + one + 286, 560, 2));
    // What it says last can be done.
    let (_, next) = said.trim_end().rsplit_once("try next: kz ").unwrap();
    assert_eq!(folder.done(next), "d/out/sweep.tokens.npy: 18x24 tokens of 64 floats\n");
    let output = folder.command("demo -o d --force").env("KZ_CALLED", "./kz").output().unwrap();
    assert!(String::from_utf8(output.stdout).unwrap().ends_with("try next: ./kz encode d/sweep.ppm -o d/out\n"));
    // Its sweeps are some for the other commands.
    folder.done("patches d/sweep.ppm -o d");
    assert!(Path::new(&folder.path("d/sweep.patches.npy")).exists());
    let said = folder.done("patches d/panorama.ppm -o d --settings image=560,rule=2");
    assert!(said.ends_with(": 10x40 patches of 588 floats; resized by rule 2\n"), "{said}");
    let said = folder.done("patches --tiles d/oversize.ppm -o d/tiles --settings image=170");
    let files: Vec<&str> = said.lines().map(|line| line.split(": ").next().unwrap()).collect();
    assert_eq!(files.len(), 8);
    folder.done(&format!("restore --tiles {} -o d/joined.ppm --settings image=170", files.join(" ")));
    assert_eq!(folder.get("d/joined.ppm"), folder.get("d/oversize.ppm"));
}

#[test]
fn a_config_is_shown_and_encoded_with() {
    let folder = Folder::new("config");
    folder.put("config.json", CONFIG.as_bytes());
    let own = "mean=0.48145467/0.4578275/0.40821072,deviation=0.26862955/0.2613026/0.2757771";
    let sizes = "hidden=8,heads=2,head=4,layers=1,intermediate=5,text=3";
    let list = format!("patch=2,merge=2,image=16,rule=1,{own},{sizes},bias=0,scale=0.5");
    assert_eq!(folder.done("config config.json"), format!("{list}\n"));
    let lent = "rule=2,mean=0.25,deviation=0.5,bias=1,scale=0.25";
    let list =
        format!("patch=2,merge=2,image=16,rule=2,mean=0.25/0.25/0.25,deviation=0.5/0.5/0.5,{sizes},bias=1,scale=0.25");
    assert_eq!(folder.done(&format!("config config.json --settings {lent}")), format!("{list}\n"));
    sweep(&folder, "a.ppm", 8, 8, 5);
    folder.done(&format!("encode a.ppm -o listed {LIST}"));
    folder.done("encode a.ppm -o read --config config.json");
    folder.done(&format!("encode a.ppm -o shown --settings {}", folder.done("config config.json").trim()));
    assert_eq!(folder.get("listed/a.tokens.npy"), folder.get("read/a.tokens.npy"));
    assert_eq!(folder.get("listed/a.tokens.npy"), folder.get("shown/a.tokens.npy"));
}

#[test]
fn a_config_is_refused_with_its_place() {
    let folder = Folder::new("config-refused");
    sweep(&folder, "a.ppm", 8, 8, 5);
    folder.put("good.json", CONFIG.as_bytes());
    folder.put("comma.json", b"{\n  \"vision_config\": {},\n}\n");
    folder.put("deep.json", &b"[".repeat(40));
    folder.put("long.json", &b" ".repeat(70_000));
    folder.put("none.json", b"{}");
    folder.put("wide.json", br#"{"vision_config": {"hidden_size": 4096}}"#);
    for words in ["config comma.json", "encode a.ppm -o out --config comma.json"] {
        let caret = "\n  }\n  ^ '\"' is expected\n";
        folder.fails(1, words, &["comma.json: refused, number 13: ", "line 3, column 1, byte 25", caret]);
    }
    folder.fails(1, "config deep.json", &["number 14: ", "column 33, byte 32", "^ this bracket opens level 33\n"]);
    folder.fails(1, "config long.json", &["long.json: refused, number 13: ", "at most 65,536 bytes"]);
    folder.fails(1, "config none.json", &["none.json: refused, number 15: "]);
    folder.fails(1, "config wide.json", &["wide.json: refused, number 1: "]);
    folder.fails(1, "config nothing.json", &["nothing.json: cannot be read"]);
    folder.fails(2, "config", &["config takes one file"]);
    folder.fails(2, "config good.json --settings patch=2", &["patch is what the config says"]);
    folder.fails(2, "patches a.ppm -o out --config good.json", &["no option --config"]);
    assert!(!folder.path("out").exists());
}
