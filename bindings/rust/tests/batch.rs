//! The command `batch`, run on a folder: the order of the replay, and what it exits with.
use std::fs;
use std::process::Command;

/// A derivation without steps, a sum of so many ones against itself.
fn sum_of_ones(n: usize) -> String {
    let term = format!("7:{n}{}", " 6".repeat(n));
    format!("types=0\nleft={term}\nright={term}\nend=0\n")
}

#[test]
fn a_batch_begins_with_the_longest_and_the_shortest() {
    let folder = std::env::temp_dir().join(format!("fejogbu-batch-{}", std::process::id()));
    fs::create_dir(&folder).unwrap();
    for (name, n) in [("a", 3), ("b", 9), ("c", 1), ("d", 200), ("e", 4)] {
        fs::write(folder.join(name), sum_of_ones(n)).unwrap();
    }
    let batch = |more: &[&str]| {
        Command::new(env!("CARGO_BIN_EXE_batch"))
            .args(more)
            .arg("--json")
            .arg(&folder)
            .output()
            .unwrap()
    };
    let all = batch(&[]);
    let help = batch(&["--help"]);
    fs::remove_dir_all(&folder).unwrap();
    assert!(all.status.success());
    let lines = String::from_utf8(all.stdout).unwrap();
    let order: String = lines
        .lines()
        .map(|line| {
            assert!(line.contains(r#""code":0,"#), "{line}");
            let name = line.split('"').nth(3).unwrap();
            name.chars().last().unwrap()
        })
        .collect();
    assert_eq!(order, "dcabe");
    assert_eq!(help.status.code(), Some(2));
    let told = String::from_utf8(help.stderr).unwrap();
    assert!(told.contains("The longest file is replayed first and the shortest second"));
}
