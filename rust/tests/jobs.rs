//! Several sweeps at once, weights that all runs share, and what is said once.

mod common;

use common::tool::{p6, plain, sweep, Folder, LIST, TABLE, WEIGHTS};
use common::Random;
use std::fs::{self, File, OpenOptions};
use std::io::Write;
use std::process::{Child, Command, Output, Stdio};
use std::thread::sleep;
use std::time::Duration;

/// Status, what is said and what is said of errors.
type Said = (Option<i32>, String, String);

fn said(output: Output) -> Said {
    let text = |bytes| String::from_utf8(bytes).unwrap();
    (output.status.code(), text(output.stdout), text(output.stderr))
}

fn fifo(folder: &Folder, name: &str) {
    assert!(Command::new("mkfifo").arg(folder.path(name)).status().unwrap().success());
}

/// Starts a run whose sweeps come from pipes.
fn start(folder: &Folder, words: &str) -> Child {
    folder.command(words).stdout(Stdio::piped()).stderr(Stdio::piped()).spawn().unwrap()
}

/// Waits until something is so, at most half a minute.
fn until(what: &str, so: impl Fn() -> bool) {
    for _ in 0..3000 {
        if so() {
            return;
        }
        sleep(Duration::from_millis(10));
    }
    panic!("{what} did not come");
}

/// Sweeps of several sizes, some of them none, and a name that leads nowhere.
fn mixed(folder: &Folder) -> String {
    let mut names = vec![];
    for i in 0..40 {
        let name = format!("s{i:02}.ppm");
        match i % 8 {
            3 => folder.put(&name, b"P6 8 8 255 short"),
            5 => folder.put(&name, b"P3 no"),
            _ => drop(sweep(folder, &name, 4 + i * 7 % 40, 4 + i * 5 % 30, 1 + i as u64)),
        }
        names.push(name);
    }
    names.insert(17, "none.ppm".into());
    names.join(" ")
}

type Files = Vec<(String, Vec<u8>)>;

/// A run in a folder with these files: what is said, the log, and the files that are there then.
fn outcome(folder: &Folder, words: &str, there: &Files) -> (Said, Vec<u8>, Files) {
    let _ = fs::remove_dir_all(folder.path("out"));
    fs::create_dir(folder.path("out")).unwrap();
    there.iter().for_each(|(name, bytes)| folder.put(&format!("out/{name}"), bytes));
    let said = said(folder.kz(&format!("{words} -o out --log job.log {LIST}")));
    let log = folder.get("job.log");
    fs::remove_file(folder.path("job.log")).unwrap();
    let files = folder.names("out").into_iter().map(|name| (name.clone(), folder.get(&format!("out/{name}"))));
    (said, log, files.collect())
}

#[test]
fn jobs_change_nothing() {
    let folder = Folder::new("jobs");
    let list = mixed(&folder);
    for command in ["patches", "patches --tiles", "encode", "encode --tiles --bf16"] {
        let one = outcome(&folder, &format!("{command} {list}"), &vec![]);
        let (status, _, errors) = &one.0;
        assert_eq!(*status, Some(1), "{errors}");
        assert!(errors.ends_with("kz: 11 of 41 sweeps were refused\n"), "{errors}");
        assert!(one.2.len() >= 30);
        // Where every third file is there already, skipped and not.
        let there: Files = one.2.iter().step_by(3).cloned().collect();
        let skipped = outcome(&folder, &format!("{command} {list} --skip-existing"), &there);
        let taken = outcome(&folder, &format!("{command} {list}"), &there);
        assert!(skipped.0 .1.contains("is there already, skipped") && skipped.2 == one.2);
        assert!(taken.0 .2.contains(" had their file already"), "{}", taken.0 .2);
        for jobs in [2, 5, 64] {
            let run =
                |rest: &str, there: &Files| outcome(&folder, &format!("{command} {list} --jobs {jobs} {rest}"), there);
            assert!(run("", &vec![]) == one, "{command} by {jobs}");
            assert!(run("--skip-existing", &there) == skipped, "{command} by {jobs}");
            assert!(run("", &there) == taken, "{command} by {jobs}");
        }
    }
}

/// The second sweep is done while the first one waits, and what is said still comes in the order of the list.
#[test]
fn sweeps_are_done_at_once() {
    let folder = Folder::new("jobs-once");
    let rgb = Random(1).bytes(8 * 8 * 3);
    for (round, log) in ["", "--log job.log"].into_iter().enumerate() {
        let (a, b, out) = (format!("a{round}.ppm"), format!("b{round}.ppm"), format!("out{round}"));
        let (first, second) = (format!("{out}/a{round}.tokens.npy"), format!("{out}/b{round}.tokens.npy"));
        fifo(&folder, &a);
        if log.is_empty() {
            fifo(&folder, &b);
        } else {
            folder.put(&b, &p6(8, 8, &rgb));
        }
        let run = start(&folder, &format!("encode {a} {b} -o {out} --jobs 2 {log} {LIST}"));
        if log.is_empty() {
            fs::write(folder.path(&b), p6(8, 8, &rgb)).unwrap();
            until("the second file", || folder.path(&second).exists());
            assert!(!folder.path(&first).exists());
        }
        fs::write(folder.path(&a), p6(8, 8, &rgb)).unwrap();
        let words = format!("{first}: 2x2 tokens of 3 floats\n{second}: 2x2 tokens of 3 floats\n");
        assert_eq!(said(run.wait_with_output().unwrap()), (Some(0), words, String::new()));
        assert_eq!(folder.get(&first), folder.get(&second));
    }
    // A line is written when all before it are, though its sweep is there first.
    let log = String::from_utf8(folder.get("job.log")).unwrap();
    let places: Vec<&str> = log.lines().map(|line| line.split(' ').next().unwrap()).collect();
    assert_eq!(places, ["sweep=0", "sweep=1"]);
    for (words, part) in [
        ("--jobs 0", "--jobs takes a number from 1 on, not 0"),
        ("--jobs two", "not two"),
        ("--jobs -1", "--jobs needs a value"),
        ("--jobs 1 --jobs 2", "--jobs is given twice"),
    ] {
        folder.fails(2, &format!("encode a.ppm -o out {words}"), &[part]);
    }
}

/// Under limits on the length of a file, as on a disk that is full: the list stops, once, and the log has all lines.
#[test]
fn several_stop_as_one_does() {
    let folder = Folder::new("jobs-stop");
    let names: Vec<String> = (0..12).map(|i| format!("s{i:02}.ppm")).collect();
    for (i, name) in names.iter().enumerate() {
        let side = if i < 4 { 2 } else { 16 };
        sweep(&folder, name, side, side, 1 + i as u64);
    }
    let words = format!("patches {} -o out --log job.log --jobs 4 {LIST}", names.join(" "));
    let (status, _, errors) = said(folder.shell("trap '' XFSZ; ulimit -f 4; exec \"$@\"", &words).output().unwrap());
    assert_eq!(status, Some(1));
    let lines: Vec<&str> = errors.lines().collect();
    assert!(lines.len() == 2 && lines[0].contains("cannot be written"), "{errors}");
    assert_eq!(lines[1].split(';').next(), Some("kz: stopped, with 8 of 12 sweeps still to do"), "{errors}");
    assert_eq!((folder.names("out").len(), folder.get("job.log").split(|b| *b == b'\n').count()), (4, 13));
    // A log that cannot be written stops the run too: as many files as lines.
    let words = format!("patches {} -o short --log short.log --jobs 4 {LIST}", names[..4].join(" "));
    let (status, _, errors) = said(folder.shell("trap '' XFSZ; ulimit -f 1; exec \"$@\"", &words).output().unwrap());
    assert!(status == Some(1) && errors.starts_with("kz: short.log: cannot be written"), "{errors}");
    assert_eq!(errors.lines().count(), 1, "{errors}");
    let lines = folder.get("short.log").iter().filter(|b| **b == b'\n').count();
    assert!((1..4).contains(&lines) && folder.names("short").len() == lines, "{lines}");
}

/// Weights in a file, finite or with a NaN, and tables.
fn model(folder: &Folder) -> Vec<f32> {
    let weights = Random(6).floats(WEIGHTS, 0.3);
    folder.put("w", &plain(&weights));
    let mut nan = weights.clone();
    nan[7] = f32::NAN;
    folder.put("nan", &plain(&nan));
    folder.put("t", &plain(&Random(7).floats(2 * TABLE, 1.0)));
    let mut odd = Random(7).floats(2 * TABLE, 1.0);
    odd[TABLE] = f32::INFINITY;
    folder.put("odd", &plain(&odd));
    weights
}

#[test]
fn a_nan_in_the_weights_is_said_once() {
    let folder = Folder::new("jobs-nan");
    model(&folder);
    (0..5).for_each(|i| drop(sweep(&folder, &format!("s{i}.ppm"), 8, 8, 1 + i)));
    let list = "s0.ppm s1.ppm s2.ppm s3.ppm s4.ppm";
    for jobs in [1, 4] {
        for (model, float) in
            [("--weights nan", "float 7 of nan"), ("--tables odd", &format!("float {TABLE} of odd")[..])]
        {
            let words = format!("encode {list} -o out --log job.log --force --jobs {jobs} {model} {LIST}");
            let (status, _, errors) = said(folder.kz(&words));
            let lines: Vec<&str> = errors.lines().collect();
            assert_eq!((status, lines.len()), (Some(1), 2), "{errors}");
            assert!(lines[0].starts_with("kz: s0.ppm: refused, number 12: ") && lines[0].contains(float), "{errors}");
            assert_eq!(
                lines[1],
                "kz: stopped, with 5 of 5 sweeps still to do; mend that, and go on with --skip-existing"
            );
            assert_eq!(folder.get("job.log").split(|b| *b == b'\n').count(), 6);
        }
    }
    assert!(folder.names("out").is_empty());
    // What is refused for its own pixels alone is still named each time.
    let huge: Vec<f32> = Random(6).floats(WEIGHTS, 1e38);
    folder.put("huge", &plain(&huge));
    let (_, _, errors) = said(folder.kz(&format!("encode {list} -o out --weights huge {LIST}")));
    assert_eq!(errors.matches("all inputs are").count(), 5, "{errors}");
}

/// A run that is at its second sweep, which comes from a pipe: something is done to the weights meanwhile.
fn meanwhile(folder: &Folder, round: usize, weights: impl FnOnce()) -> Said {
    let (a, b, out) = ("a.ppm", format!("b{round}.ppm"), format!("out{round}"));
    fifo(folder, &b);
    let run = start(folder, &format!("encode {a} {b} -o {out} --weights w {LIST}"));
    until("the first file", || folder.path(&format!("{out}/a.tokens.npy")).exists());
    weights();
    fs::write(folder.path(&b), folder.get(a)).unwrap();
    said(run.wait_with_output().unwrap())
}

#[test]
fn weights_that_change_are_not_used() {
    let folder = Folder::new("jobs-weights");
    let weights = model(&folder);
    sweep(&folder, "a.ppm", 8, 8, 1);
    folder.done(&format!("encode a.ppm -o right --weights w {LIST}"));
    // Another file of the same name, which is how a file is replaced.
    let replaced = meanwhile(&folder, 0, || {
        folder.put("new", &vec![0; 4 * WEIGHTS]);
        fs::rename(folder.path("new"), folder.path("w")).unwrap();
    });
    assert_eq!((replaced.0, &replaced.2[..]), (Some(0), ""));
    assert_eq!(folder.get("out0/b0.tokens.npy"), folder.get("right/a.tokens.npy"));
    // The same file, written over; a touch is enough, since nothing tells what was done.
    folder.put("w", &plain(&weights));
    let (status, _, errors) = meanwhile(&folder, 1, || {
        sleep(Duration::from_millis(50));
        OpenOptions::new().write(true).open(folder.path("w")).unwrap().write_all(&[0; 4]).unwrap();
    });
    assert_eq!(status, Some(1), "{errors}");
    assert!(errors.starts_with("kz: b1.ppm: w was changed while it was in use; "), "{errors}");
    assert!(errors.contains("\nkz: stopped, with 1 of 2 sweeps still to do"), "{errors}");
    assert_eq!(folder.names("out1"), ["a.tokens.npy"]);
    // Cut short.
    folder.put("w", &plain(&weights));
    let (status, _, errors) = meanwhile(&folder, 2, || drop(File::create(folder.path("w")).unwrap()));
    assert_eq!(status, Some(1), "{errors}");
    assert!(errors.starts_with("kz: w: was cut short, or cannot be read any more, while it was in use"), "{errors}");
    assert_eq!(folder.names("out2"), ["a.tokens.npy"]);
}

/// A pipe cannot be mapped, and is read.
#[test]
fn weights_may_come_from_a_pipe() {
    let folder = Folder::new("jobs-pipe");
    model(&folder);
    sweep(&folder, "a.ppm", 8, 8, 1);
    folder.done(&format!("encode a.ppm -o right --weights w {LIST}"));
    let words = format!("encode a.ppm -o out --weights /dev/stdin {LIST}");
    let output = folder.shell("cat w | \"$@\"", &words).output().unwrap();
    assert_eq!(said(output).0, Some(0));
    assert_eq!(folder.get("out/a.tokens.npy"), folder.get("right/a.tokens.npy"));
}

/// On a terminal one sweep has a line that moves, with the time and about how long it takes; elsewhere nothing is said.
#[test]
fn a_sign_of_life() {
    let folder = Folder::new("jobs-alive");
    sweep(&folder, "a.ppm", 14, 14, 1);
    fifo(&folder, "b.ppm");
    let mut script = Command::new("script");
    let kz = "\"$KZ\" encode b.ppm -o out --settings image=224; echo status $?";
    let command =
        script.args(["-qefc", kz, "/dev/null"]).env("KZ", env!("CARGO_BIN_EXE_kz")).current_dir(folder.path("."));
    if std::env::var_os("KZ_EMULATOR").is_some() || Command::new("script").arg("--version").output().is_err() {
        eprintln!("a_sign_of_life: skipped: script, which makes a terminal, is not installed, or an emulator runs kz");
        return;
    }
    let run = command.stdin(Stdio::null()).stdout(Stdio::piped()).spawn().unwrap();
    sleep(Duration::from_millis(2500));
    fs::write(folder.path("b.ppm"), folder.get("a.ppm")).unwrap();
    let (_, words, _) = said(run.wait_with_output().unwrap());
    for part in
        ["\r\x1b[K1/1 (0%) b: 1 s", "\r\x1b[K1/1 (0%) b: 2 s", "\r\x1b[Kout/b.tokens.npy: 1x1 tokens", "status 0"]
    {
        assert!(words.contains(part), "{part:?} is not in {words:?}");
    }
}
