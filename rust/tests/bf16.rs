//! bf16 in 16 bits: of slices, and of the files that `kz encode --bf16` writes.

mod common;

use common::tool::{npy_head, sweep, Folder, LIST};
use common::Random;
use kyzgultam::{bf16, bf16_pack, bf16_pack_all, bf16_widen, bf16_widen_all};

#[test]
fn of_one_value() {
    for bits in 0..=u16::MAX {
        let wide = bf16_widen(bits);
        assert_eq!(wide.to_bits(), u32::from(bits) << 16);
        assert_eq!(bf16_pack(wide), bits);
    }
    let mut random = Random(5);
    for _ in 0..100_000 {
        let x = f32::from_bits(random.next() as u32);
        assert_eq!(bf16_widen(bf16_pack(x)).to_bits(), bf16(x).to_bits());
    }
    // A NaN whose bits run over becomes -0.
    assert_eq!(bf16_pack(f32::from_bits(0x7FFF_FFFF)), 0x8000);
    assert_eq!(bf16_pack(f32::MAX), 0x7F80);
}

/// Every length up to some, so that whole registers and what is left of them are met, at every alignment.
#[test]
fn of_slices() {
    let mut random = Random(6);
    let patterns: Vec<f32> = (0..80).map(|_| f32::from_bits(random.next() as u32)).collect();
    for (len, room, skip) in (0..70).flat_map(|len| (0..70).map(move |room| (len, room, (len + room) % 9))) {
        let x = &patterns[skip..skip + len];
        let count = len.min(room);
        let mut out = vec![0x1234; room + skip];
        assert_eq!(bf16_pack_all(x, &mut out[skip..]), count);
        let packed: Vec<u16> = x[..count].iter().map(|x| (bf16(*x).to_bits() >> 16) as u16).collect();
        assert!(out[..skip].iter().chain(&out[skip + count..]).all(|kept| *kept == 0x1234));
        assert_eq!(out[skip..skip + count], packed);
        let mut wide = vec![7.5; room + skip];
        assert_eq!(bf16_widen_all(&packed, &mut wide[skip..]), count);
        assert!(wide[..skip].iter().chain(&wide[skip + count..]).all(|kept| *kept == 7.5));
        let bits = |floats: &[f32]| floats.iter().map(|f| f.to_bits()).collect::<Vec<u32>>();
        let rounded: Vec<f32> = x[..count].iter().map(|x| bf16(*x)).collect();
        assert_eq!(bits(&wide[skip..skip + count]), bits(&rounded));
    }
}

/// The floats of a .npy file behind its header, and the same as the packed file is to hold them.
fn packed(file: &[u8]) -> Vec<u8> {
    let start = 10 + usize::from(u16::from_le_bytes([file[8], file[9]]));
    let floats = file[start..].chunks_exact(4).map(|b| f32::from_le_bytes([b[0], b[1], b[2], b[3]]));
    floats.flat_map(|x| bf16_pack(x).to_le_bytes()).collect()
}

#[test]
fn files_of_half_the_size() {
    let folder = Folder::new("bf16");
    sweep(&folder, "a.ppm", 16, 12, 3);
    sweep(&folder, "b.ppm", 30, 20, 4);
    assert_eq!(folder.done(&format!("encode a.ppm -o wide {LIST}")), "wide/a.tokens.npy: 4x3 tokens of 3 floats\n");
    let said = "half/a.tokens.npy: 4x3 tokens of 3 bf16 values\n";
    assert_eq!(folder.done(&format!("encode a.ppm -o half --bf16 {LIST}")), said);
    let head = npy_head("{'descr': '<u2', 'fortran_order': False, 'shape': (4, 3, 3), }");
    assert_eq!(folder.get("half/a.tokens.npy"), [head, packed(&folder.get("wide/a.tokens.npy"))].concat());
    folder.done(&format!("encode --tiles b.ppm -o wide {LIST}"));
    folder.done(&format!("encode --tiles --bf16 b.ppm -o half {LIST}"));
    let tiles = folder.names("wide");
    assert!(tiles == folder.names("half") && tiles.len() == 5);
    for tile in tiles {
        let half = folder.get(&format!("half/{tile}"));
        assert!(half.ends_with(&packed(&folder.get(&format!("wide/{tile}")))), "{tile}");
    }
}

#[test]
fn forms_are_told_apart() {
    let folder = Folder::new("bf16-forms");
    sweep(&folder, "a.ppm", 16, 12, 3);
    folder.done(&format!("encode a.ppm -o half --bf16 {LIST}"));
    let skipped = "half/a.tokens.npy: is there already, skipped\n";
    assert_eq!(folder.done(&format!("encode a.ppm -o half --bf16 --skip-existing {LIST}")), skipped);
    let other = ["was not skipped: it holds bf16 values (<u2), and is to hold floats"];
    folder.fails(1, &format!("encode a.ppm -o half --skip-existing {LIST}"), &other);
    folder.done(&format!("encode a.ppm -o half --force {LIST}"));
    let other = ["was not skipped: it holds floats (<f4), and is to hold bf16 values"];
    folder.fails(1, &format!("encode a.ppm -o half --bf16 --skip-existing {LIST}"), &other);
    // No other command writes bf16 or takes it for patches.
    folder.done(&format!("encode a.ppm -o half --bf16 --force {LIST}"));
    folder.fails(1, &format!("restore half/a.tokens.npy -o back.ppm {LIST}"), &["holds bf16 values (<u2)"]);
    folder.fails(2, &format!("patches a.ppm -o out --bf16 {LIST}"), &["no option --bf16"]);
}
