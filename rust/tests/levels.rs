//! The levels of processors: each that this machine has gives the same bits, and KZ_LEVEL picks one, or is answered with
//! those that there are. Where the archives of one level alone are linked, that is the answer.

mod common;

use common::tool::Folder;
use common::Random;
use kyzgultam::{level, Level};
use std::process::{Command, Output};

/// What a process of its own prints: its level, and hashes of what the calls gave.
const PRINTED: &str = "printed by a level: ";

fn fnv(hash: u64, bytes: impl IntoIterator<Item = u8>) -> u64 {
    bytes.into_iter().fold(hash, |hash, byte| (hash ^ u64::from(byte)).wrapping_mul(0x0100_0000_01B3))
}

fn of_floats(hash: u64, floats: &[f32]) -> u64 {
    fnv(hash, floats.iter().flat_map(|x| x.to_bits().to_le_bytes()))
}

const START: u64 = 0xCBF2_9CE4_8422_2325;

/// Pictures resized, cut, and brought back.
fn pictures(random: &mut Random) -> u64 {
    let mut hash = START;
    for _ in 0..300 {
        let (s, height, width) = (random.picture(), random.from(1, 120), random.from(1, 120));
        let rgb = random.bytes(height * width * 3);
        let Ok(len) = s.patches_len(height, width) else { continue };
        let (mut patches, mut back) = (vec![0.0; len], vec![0; len]);
        let cut = kyzgultam::pixtral_preprocess(&rgb, height, width, &s, &mut patches).unwrap();
        kyzgultam::restore(&patches, cut.grid_h, cut.grid_w, &s, &mut back).unwrap();
        hash = fnv(of_floats(hash, &patches), back);
    }
    hash
}

/// Forward of small models, and of some whose rows and heads fill the widest registers.
fn forwards(random: &mut Random) -> u64 {
    let mut hash = START;
    for turn in 0..150 {
        let mut s = random.encoder();
        if turn % 5 == 0 {
            (s.head_dim, s.intermediate_size, s.text_hidden_size) = (36 + 4 * random.from(0, 9), 131, 97);
            s.hidden_size = s.num_heads * s.head_dim;
        }
        let (patch, merge) = (s.picture.patch_size, s.picture.spatial_merge_size);
        s.picture.image_size = patch * merge * random.from(1, 4);
        let most = s.picture.image_size / patch / merge;
        let grid = (merge * random.from(1, most), merge * random.from(1, most));
        let n = s.lengths(grid.0, grid.1).unwrap();
        let (patches, weights) = (random.floats(n.patches, 2.0), random.floats(n.weights, 0.5));
        let (cos, sin) = (random.floats(n.tables, 1.0), random.floats(n.tables, 1.0));
        let (mut scratch, mut out) = (vec![0.0; n.scratch], vec![0.0; n.out]);
        let found = kyzgultam::forward(&s, &patches, grid.0, grid.1, &weights, &cos, &sin, &mut scratch, &mut out);
        assert!(found.is_ok(), "{found:?}");
        hash = of_floats(hash, &out);
    }
    hash
}

/// The number rules, of any patterns, and slices of bf16.
fn numbers(random: &mut Random) -> u64 {
    let floats: Vec<f32> = (0..200_000).map(|_| f32::from_bits(random.next() as u32)).collect();
    let mut hash = START;
    for rule in [kyzgultam::bf16, kyzgultam::root, kyzgultam::exp, kyzgultam::tanh] {
        hash = of_floats(hash, &floats.iter().map(|x| rule(*x)).collect::<Vec<_>>());
    }
    let halves: Vec<f32> = (0..=u16::MAX).map(kyzgultam::half_to_f32).collect();
    hash = of_floats(hash, &halves);
    let (mut packed, mut wide) = (vec![0; floats.len()], vec![0.0; floats.len()]);
    for len in (0..200).chain([floats.len()]) {
        kyzgultam::bf16_pack_all(&floats[..len], &mut packed);
        kyzgultam::bf16_widen_all(&packed[..len], &mut wide);
        hash = of_floats(fnv(hash, packed[..len].iter().flat_map(|b| b.to_le_bytes())), &wide[..len]);
    }
    hash
}

/// Not a test of its own: what each process of `each_level_has_the_same_bits` does.
#[test]
#[ignore]
fn one_level() {
    let mut random = Random(20_260_031);
    let hashes = [pictures(&mut random), forwards(&mut random), numbers(&mut random)];
    println!("\n{PRINTED}{} {hashes:016x?}", level().unwrap().map_or("one", Level::name));
}

/// This program again, with a level, for one test.
fn again(name: Option<&str>) -> Output {
    let mut words = std::env::var_os("KZ_EMULATOR").into_iter().chain([std::env::current_exe().unwrap().into()]);
    let mut command = Command::new(words.next().unwrap());
    command.args(words).args(["one_level", "--exact", "--ignored", "--nocapture"]).env_remove("KZ_LEVEL");
    name.map(|name| command.env("KZ_LEVEL", name));
    command.output().unwrap()
}

/// The level that ran, and the hashes.
fn printed(output: &Output) -> (String, String) {
    let said = String::from_utf8_lossy(&output.stdout);
    let found = said.lines().find_map(|line| line.strip_prefix(PRINTED)).unwrap_or_else(|| panic!("{output:?}"));
    let (level, hashes) = found.split_once(' ').unwrap();
    (level.into(), hashes.into())
}

fn linked() -> bool {
    !matches!(level(), Ok(None))
}

#[test]
fn each_level_has_the_same_bits() {
    let (picked, hashes) = printed(&again(None));
    if !linked() {
        assert_eq!(picked, "one");
        return;
    }
    let here: Vec<Level> = Level::ALL.into_iter().filter(|level| level.is_here()).collect();
    assert_eq!(picked, here[here.len() - 1].name());
    for level in here {
        assert_eq!(printed(&again(Some(level.name()))), (level.name().into(), hashes.clone()));
    }
}

/// What is said of a level that cannot be had: by the tool with status 1, and by a call of the library as it panics.
#[test]
fn a_wrong_level_is_said() {
    let folder = Folder::new("levels");
    let mut wrong: Vec<&str> = vec!["", "x86-64-v2", "x86-64-v5", "X86-64", "x86-64 "];
    wrong.extend(Level::ALL.into_iter().filter(|level| !level.is_here()).map(Level::name));
    for name in wrong {
        let output = folder.command("--version").env("KZ_LEVEL", name).output().unwrap();
        let said = String::from_utf8(output.stderr).unwrap();
        assert_eq!((output.status.code(), output.stdout.len()), (Some(1), 0), "{said}");
        let known = Level::ALL.into_iter().any(|level| level.name() == name);
        let (start, end) = match (linked(), known) {
            (true, false) => ("and there is no such level; here there are: x86-64", "\n"),
            (true, true) => ("and this processor has not got that level; here there are: x86-64", "\n"),
            (false, _) => ("but only the archives of KZ_ARCHIVES were linked, of one level: unset it", "\n"),
        };
        assert!(said.starts_with(&format!("kz: KZ_LEVEL is {name:?}, {start}")) && said.ends_with(end), "{said}");
        if linked() {
            let panicked = again(Some(name));
            assert!(!panicked.status.success());
            let sentence = said.trim_start_matches("kz: ");
            assert!(String::from_utf8(panicked.stderr).unwrap().contains(sentence), "{sentence}");
        }
    }
    assert_eq!(folder.command("--help").env("KZ_LEVEL", "none").output().unwrap().status.code(), Some(0));
}

/// `kz --version` names the level that runs.
#[test]
fn version_names_the_level() {
    let folder = Folder::new("level-version");
    for level in Level::ALL.into_iter().filter(|level| linked() && level.is_here()) {
        let output = folder.command("--version").env("KZ_LEVEL", level.name()).output().unwrap();
        let said = String::from_utf8(output.stdout).unwrap();
        assert!(said.contains(&format!("\nlevel {level}\n")), "{said}");
    }
}
