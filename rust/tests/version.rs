//! The archives that are linked are those of this crate.

#[test]
fn the_archives_have_the_crates_version() {
    let numbers: Vec<u32> = kyzgultam::VERSION.split('.').map(|n| n.parse().unwrap()).collect();
    let [first, second, third] = numbers[..] else { panic!("{} has not three numbers", kyzgultam::VERSION) };
    let version = first * 10_000 + second * 100 + third;
    assert_eq!(kyzgultam::linked_versions(), [version; 2]);
    let header = include_str!("../../include/kyzgultam.h");
    assert!(header.contains(&format!("\n#define KZ_VERSION_NUMBER {version} ")));
}
