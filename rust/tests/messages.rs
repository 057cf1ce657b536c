//! What kz says of a refusal: which setting, how many bytes, which float.

mod common;

use common::tool::{npy, plain, sweep, Folder, LIST, TINY};
use kyzgultam::pixtral_preprocess;

/// Number 1 names the setting and its range, in every command.
#[test]
fn which_setting() {
    let folder = Folder::new("which");
    sweep(&folder, "a.ppm", 8, 8, 1);
    folder.put("plain", &[0; 768]);
    for (list, part) in [
        ("patch=33", "patch=33 is not in 1..32;"),
        ("merge=0", "merge=0 is not in 1..4;"),
        ("image=2049", "image=2049 is not in 1..2048;"),
        ("rule=3", "rule=3 is neither 1 nor 2;"),
    ] {
        for command in [
            "patches a.ppm -o out",
            "compare a.ppm a.ppm",
            "restore plain --grid 4x4 -o out.ppm",
            "salvage plain --grid 4x4 -o out.ppm",
            "encode a.ppm -o out",
            "bench --size 8x8",
        ] {
            let parts = ["--settings: refused, number 1: ", part, "`kz encode --help` has the ranges"];
            folder.fails(1, &format!("{command} --settings {list}"), &parts);
        }
    }
    for (list, part) in [
        ("hidden=2052,heads=1,head=4", "hidden=2052 is not in 4..2048;"),
        ("heads=65", "heads=65 is not in 1..64;"),
        ("heads=3", "head=21 is no multiple of 4 in 4..256 (it is hidden / heads, unless it is given);"),
        ("hidden=66", "hidden=66 is not heads x head, which is 4 x 16;"),
        ("layers=49", "layers=49 is not in 0..48;"),
        ("intermediate=0", "intermediate=0 is not in 1..8192;"),
        ("text=8193", "text=8193 is not in 1..8192;"),
        ("bias=2", "bias=2 is neither 0 nor 1;"),
        ("scale=-1", "scale=-1 is not finite and above 0;"),
    ] {
        folder.fails(1, &format!("encode a.ppm -o out --settings {list}"), &["--settings: refused, number 1: ", part]);
    }
    folder.put("c.json", br#"{"vision_config": {"patch_size": 33}}"#);
    folder.fails(1, "config c.json", &["c.json: refused, number 1: ", "patch_size is not in 1..32"]);
    folder.fails(1, "config c.json --settings rule=9", &["c.json: refused, number 1: ", "rule=9 is neither 1 nor 2"]);
    assert_eq!(folder.names("."), ["a.ppm", "c.json", "plain"]);
}

/// A key is given once, and is one that the command uses; blanks around a pair are none of it.
#[test]
fn keys_of_settings() {
    let folder = Folder::new("keys");
    sweep(&folder, "a.ppm", 8, 8, 1);
    for (words, part) in [
        ("patches a.ppm -o out --settings patch=2,image=16,patch=2", "--settings: patch is given twice"),
        ("encode a.ppm -o out --settings mean=0.2,mean=0.3", "--settings: mean is given twice"),
        ("patches a.ppm -o out --settings hidden=8", "hidden is not used by patches, which takes patch merge image"),
        ("patches a.ppm -o out --settings bias=1", "which takes patch merge image rule mean deviation;"),
        (
            "restore a.npy -o out.ppm --settings layers=1",
            "layers is not used by restore, which takes patch merge image",
        ),
        ("salvage a.npy -o out.ppm --settings text=1", "text is not used by salvage, which takes patch merge image"),
        ("compare a.ppm a.ppm --settings scale=1", "scale is not used by compare, which takes patch merge image"),
        ("weights a -o out --settings mean=1", "mean is not used by weights, which takes patch merge image"),
        (
            "weights a -o out --settings rule=1",
            "which takes patch merge image hidden heads head layers intermediate text bias;",
        ),
    ] {
        folder.fails(2, words, &[part, "`kz --help`"]);
    }
    let spaced = ["patches", "a.ppm", "-o", "spaced", "--settings", "patch=2, merge=2,  image=16,"];
    assert!(folder.command("").args(spaced).output().unwrap().status.success());
    folder.done("patches a.ppm -o close --settings patch=2,merge=2,image=16");
    assert_eq!(folder.get("spaced/a.patches.npy"), folder.get("close/a.patches.npy"));
}

/// Number 7 says how many bytes there are, and how many are expected; from a pipe too.
#[test]
fn how_many_bytes() {
    let folder = Folder::new("bytes");
    let rgb = sweep(&folder, "a.ppm", 8, 8, 1);
    let mut patches = vec![0.0; TINY.patches_len(8, 8).unwrap()];
    pixtral_preprocess(&rgb, 8, 8, &TINY, &mut patches).unwrap();
    let bytes = plain(&patches);
    assert_eq!(bytes.len(), 768);
    folder.put("short", &bytes[..765]);
    folder.put("long", &[&bytes[..], &[0; 8]].concat());
    folder.put("deep.npy", &npy([4, 4, 11], &patches[..176]));
    for command in ["restore", "salvage"] {
        let fails = |words: &str, part: &str| {
            folder.fails(
                1,
                &format!("{command} {words} -o out.ppm {LIST}"),
                &["refused, number 7: ", part, "--settings"],
            );
        };
        fails("short --grid 4x4", "it has 765 bytes of floats, and 768 are expected");
        fails("long --grid 4x4", "it has 776 bytes of floats, and 768 are expected");
        fails("deep.npy", "it has 704 bytes of floats, and 768 are expected; it was read as 4x4 patches of 11 floats");
        for (script, part) in [
            ("cat short", "it has 765 bytes of floats, and 768 are expected"),
            ("cat long", "it has more than 768 bytes of floats, and 768 are expected"),
        ] {
            let words = format!("{command} /dev/stdin --grid 4x4 -o out.ppm {LIST}");
            let output = folder.shell(&format!("{script} | \"$@\""), &words).output().unwrap();
            let said = String::from_utf8(output.stderr).unwrap();
            assert!(output.status.code() == Some(1) && said.contains(part), "{said}");
        }
    }
    sweep(&folder, "b.ppm", 24, 16, 2);
    folder.done(&format!("patches --tiles b.ppm -o t {LIST}"));
    let (whole, part) = ("t/b.24x16.r00c00.patches.npy", "t/b.24x16.r01c00.patches.npy");
    let other = folder.get(whole);
    folder.put(part, &other);
    let parts = ["refused, number 7: ", "it has 8x8 patches of 12 floats: tile r01c00", "it has 3072 bytes of floats"];
    folder.fails(1, &format!("restore --tiles {whole} {part} -o out.ppm {LIST}"), &parts);
}

/// Number 8 says which float, in which patch.
#[test]
fn which_float() {
    let folder = Folder::new("float");
    let rgb = sweep(&folder, "a.ppm", 8, 12, 1);
    let mut patches = vec![0.0; TINY.patches_len(8, 12).unwrap()];
    pixtral_preprocess(&rgb, 8, 12, &TINY, &mut patches).unwrap();
    patches[250] = f32::from_bits(0x7F80_0001);
    patches[100] = f32::from_bits(1);
    folder.put("bad.npy", &npy([4, 6, 12], &patches));
    let which =
        "float 100, of the patch in row 1, column 2, has bits that no byte has: 0x00000001; the file is damaged";
    folder.fails(1, &format!("restore bad.npy -o out.ppm {LIST}"), &["bad.npy: refused, number 8: ", which]);

    sweep(&folder, "b.ppm", 24, 15, 2);
    folder.done(&format!("patches --tiles b.ppm -o t {LIST}"));
    let (first, last) = ("t/b.24x15.r00c00.patches.npy", "t/b.24x15.r01c00.patches.npy");
    let mut bytes = folder.get(first);
    // Of 8 x 8 patches the last column has a column of padding: it gets the sample of a pixel.
    let at = bytes.len() - 4 * 8 * 8 * 12;
    let pixel = bytes[at..at + 4].to_vec();
    let padding = at + 4 * (7 * 12 + 1);
    assert_ne!(bytes[padding..padding + 4], pixel);
    bytes[padding..padding + 4].copy_from_slice(&pixel);
    folder.put(first, &bytes);
    let which = "float 85, of the patch in row 0, column 7, lies in the padding and is not byte 0's: 0x";
    let words = format!("restore --tiles {first} {last} -o out.ppm {LIST}");
    folder.fails(1, &words, &["refused, number 8: ", which, "or is not tile r00c00 of its sweep"]);
}
