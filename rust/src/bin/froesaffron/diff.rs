//! The unified diff of two texts, in the form of `diff -u`, with three lines of context.
//!
//! Which lines the two have in common is found by Myers' algorithm in linear space (An O(ND)
//! Difference Algorithm and Its Variations, Algorithmica 1, 1986): paths of edits grow from both
//! ends, where they meet the texts are split, and so on with the two halves. Lines at the ends that
//! are the same, and lines that only one text has, are set aside before, which changes nothing
//! about the rest.
use std::collections::HashMap;
use std::ffi::OsStr;
use std::ops::Range;

/// How many unchanged lines stand before and after a change.
const CONTEXT: usize = 3;
/// After so many edits from each end the search takes the best split so far. The diff may then be
/// longer than need be, and is as correct.
const MOST_EDITS: usize = 2048;

/// The unified diff from one text to another under a file's name, or nothing where they are the
/// same.
pub fn unified(name: &OsStr, old: &[u8], new: &[u8]) -> Vec<u8> {
    let old: Vec<&[u8]> = lines(old);
    let new: Vec<&[u8]> = lines(new);
    let changes = changes(&old, &new);
    let mut out = Vec::new();
    if changes.is_empty() {
        return out;
    }
    let name = shown(name);
    for mark in ["--- ", "+++ "] {
        out.extend_from_slice(mark.as_bytes());
        out.extend_from_slice(&name);
        out.push(b'\n');
    }
    let mut rest = &changes[..];
    while let Some(count) = close(rest) {
        let (hunk, later) = rest.split_at(count);
        write_hunk(hunk, &old, &new, &mut out);
        rest = later;
    }
    out
}

/// The lines of a text, each with the line feed that ends it.
fn lines(text: &[u8]) -> Vec<&[u8]> {
    text.split_inclusive(|byte| *byte == b'\n').collect()
}

/// A name as `diff` and `patch` write it: in quotes and with escapes where it has a control
/// character, a quote or a backslash; with a tab behind it where it has blanks, which ends it.
fn shown(name: &OsStr) -> Vec<u8> {
    let name = bytes(name);
    let plain = |byte: &u8| !byte.is_ascii_control() && !matches!(byte, b'"' | b'\\');
    let mut out = Vec::new();
    if name.iter().all(plain) {
        out.extend_from_slice(&name);
        if name.contains(&b' ') {
            out.push(b'\t');
        }
        return out;
    }
    out.push(b'"');
    for byte in name {
        match byte {
            b'"' | b'\\' => out.extend_from_slice(&[b'\\', byte]),
            _ if plain(&byte) => out.push(byte),
            _ => out.extend_from_slice(format!("\\{byte:03o}").as_bytes()),
        }
    }
    out.push(b'"');
    out
}

/// A name as the system has it.
#[cfg(unix)]
pub fn bytes(name: &OsStr) -> Vec<u8> {
    std::os::unix::ffi::OsStrExt::as_bytes(name).to_vec()
}

/// A name in UTF-8.
#[cfg(not(unix))]
pub fn bytes(name: &OsStr) -> Vec<u8> {
    name.to_string_lossy().into_owned().into_bytes()
}

/// Lines of the old text, counted from 0, in whose place lines of the new text stand. One of the
/// two may be empty.
#[derive(Debug, PartialEq, Eq)]
struct Change {
    old: Range<usize>,
    new: Range<usize>,
}

/// How many of the first changes stand in one hunk, since no more lines are between them than their
/// contexts have; none of none.
fn close(changes: &[Change]) -> Option<usize> {
    let apart = |pair: &[Change]| pair[1].old.start - pair[0].old.end > 2 * CONTEXT;
    let first = changes
        .windows(2)
        .position(apart)
        .map_or(changes.len(), |at| at + 1);
    Some(first).filter(|count| *count > 0)
}

/// Writes a hunk: its head, and its lines.
fn write_hunk(hunk: &[Change], old: &[&[u8]], new: &[&[u8]], out: &mut Vec<u8>) {
    let (first, last) = (&hunk[0], &hunk[hunk.len() - 1]);
    let before = first.old.start.min(CONTEXT);
    let after = (old.len() - last.old.end).min(CONTEXT);
    let its_old = first.old.start - before..last.old.end + after;
    let its_new = first.new.start - before..last.new.end + after;
    out.extend_from_slice(
        format!("@@ -{} +{} @@\n", counted(&its_old), counted(&its_new)).as_bytes(),
    );
    let mut at = its_old.start;
    for change in hunk {
        write_lines(b' ', &old[at..change.old.start], out);
        write_lines(b'-', &old[change.old.clone()], out);
        write_lines(b'+', &new[change.new.clone()], out);
        at = change.old.end;
    }
    write_lines(b' ', &old[at..its_old.end], out);
}

/// Where lines stand, as the head of a hunk says it: the first, from 1, and how many. One alone
/// isn't counted. Of none it is the line before.
fn counted(lines: &Range<usize>) -> String {
    match lines.len() {
        0 => format!("{},0", lines.start),
        1 => (lines.start + 1).to_string(),
        count => format!("{},{count}", lines.start + 1),
    }
}

fn write_lines(mark: u8, lines: &[&[u8]], out: &mut Vec<u8>) {
    for line in lines {
        out.push(mark);
        out.extend_from_slice(line);
        if !line.ends_with(b"\n") {
            out.extend_from_slice(b"\n\\ No newline at end of file\n");
        }
    }
}

/// The changes that make the new lines of the old ones, in order. Between two of them stands a line
/// at least that both have.
fn changes(old: &[&[u8]], new: &[&[u8]]) -> Vec<Change> {
    let mut numbers = HashMap::new();
    let mut number = |line| {
        let next = numbers.len();
        *numbers.entry(line).or_insert(next)
    };
    let old_numbers: Vec<usize> = old.iter().copied().map(&mut number).collect();
    let new_numbers: Vec<usize> = new.iter().copied().map(&mut number).collect();
    let kinds = numbers.len();
    let old_side = Side::new(&old_numbers, &new_numbers, kinds);
    let new_side = Side::new(&new_numbers, &old_numbers, kinds);
    let (removed, added) = Search::new(old_side, new_side).run();
    let (mut found, mut at_old, mut at_new) = (Vec::new(), 0, 0);
    loop {
        let old_end = at_old
            + removed[at_old..]
                .iter()
                .take_while(|changed| **changed)
                .count();
        let new_end = at_new
            + added[at_new..]
                .iter()
                .take_while(|changed| **changed)
                .count();
        if at_old < old_end || at_new < new_end {
            found.push(Change {
                old: at_old..old_end,
                new: at_new..new_end,
            });
        }
        if old_end == old.len() {
            return found;
        }
        // Neither line changes here, so they are the same line.
        (at_old, at_new) = (old_end + 1, new_end + 1);
    }
}

/// The lines of one text, as numbers.
struct Side {
    /// Which lines of the text change.
    changed: Vec<bool>,
    /// The numbers of the lines that the other text has too.
    shared: Vec<usize>,
    /// Where in the text each of these stands.
    places: Vec<usize>,
}

impl Side {
    /// The side of `its` lines beside the lines of the `other`, each below `kinds`.
    fn new(its: &[usize], other: &[usize], kinds: usize) -> Side {
        let mut there = vec![false; kinds];
        for number in other {
            there[*number] = true;
        }
        let changed: Vec<bool> = its.iter().map(|number| !there[*number]).collect();
        let places: Vec<usize> = (0..its.len()).filter(|place| !changed[*place]).collect();
        let shared = places.iter().map(|place| its[*place]).collect();
        Side {
            changed,
            shared,
            places,
        }
    }

    fn change(&mut self, lines: Range<usize>) {
        for place in &self.places[lines] {
            self.changed[*place] = true;
        }
    }
}

/// The search for the lines that change, over those that both texts have. A place in the old lines
/// is an `x`, one in the new lines a `y`, and what they differ by, `x - y`, is their diagonal. A
/// step along a diagonal keeps a line, each other step removes or adds one.
struct Search {
    old: Side,
    new: Side,
    /// How far the paths from the front came on each diagonal, as an `x`.
    forward: Vec<isize>,
    /// How far those from the end came.
    backward: Vec<isize>,
}

impl Search {
    fn new(old: Side, new: Side) -> Search {
        let diagonals = old.shared.len() + new.shared.len() + 3;
        Search {
            old,
            new,
            forward: vec![0; diagonals],
            backward: vec![0; diagonals],
        }
    }

    /// Which of the old lines are removed, and which of the new ones are added.
    fn run(mut self) -> (Vec<bool>, Vec<bool>) {
        let mut parts = vec![(0..self.old.shared.len(), 0..self.new.shared.len())];
        while let Some((old, new)) = parts.pop() {
            let (old, new) = self.without_ends(old, new);
            if old.is_empty() || new.is_empty() {
                self.old.change(old);
                self.new.change(new);
                continue;
            }
            let (x, y) = self.middle(&old, &new);
            parts.push((old.start..x, new.start..y));
            parts.push((x..old.end, y..new.end));
        }
        (self.old.changed, self.new.changed)
    }

    /// The two without the lines at their ends that are the same.
    fn without_ends(
        &self,
        mut old: Range<usize>,
        mut new: Range<usize>,
    ) -> (Range<usize>, Range<usize>) {
        let (a, b) = (&self.old.shared, &self.new.shared);
        while !old.is_empty() && !new.is_empty() && a[old.start] == b[new.start] {
            old.start += 1;
            new.start += 1;
        }
        while !old.is_empty() && !new.is_empty() && a[old.end - 1] == b[new.end - 1] {
            old.end -= 1;
            new.end -= 1;
        }
        (old, new)
    }

    /// A place on a shortest path of edits, about its middle. Neither range is empty, and their
    /// ends differ.
    fn middle(&mut self, old: &Range<usize>, new: &Range<usize>) -> (usize, usize) {
        let (a, b) = (&self.old.shared, &self.new.shared);
        let (left, right) = (old.start as isize, old.end as isize);
        let (top, bottom) = (new.start as isize, new.end as isize);
        // A diagonal's index: none is below `-b.len() - 1`.
        let at = |diagonal: isize| (diagonal + b.len() as isize + 1) as usize;
        let same = |x: isize, y: isize| a[x as usize] == b[y as usize];
        let (fore, back) = (&mut self.forward, &mut self.backward);
        let mut ahead = Diagonals::new(left - top, left - bottom, right - top);
        let mut behind = Diagonals::new(right - bottom, left - bottom, right - top);
        let odd = (left - top - right + bottom) % 2 != 0;
        fore[at(ahead.least)] = left;
        back[at(behind.least)] = right;
        for edits in 1.. {
            ahead.widen(|edge| fore[at(edge)] = -1);
            for diagonal in ahead.each() {
                let (lower, higher) = (fore[at(diagonal - 1)], fore[at(diagonal + 1)]);
                let mut x = if lower < higher { higher } else { lower + 1 };
                while x < right && x - diagonal < bottom && same(x, x - diagonal) {
                    x += 1;
                }
                fore[at(diagonal)] = x;
                if odd && behind.has(diagonal) && back[at(diagonal)] <= x {
                    return (x as usize, (x - diagonal) as usize);
                }
            }
            behind.widen(|edge| back[at(edge)] = isize::MAX);
            for diagonal in behind.each() {
                let (lower, higher) = (back[at(diagonal - 1)], back[at(diagonal + 1)]);
                let mut x = if lower < higher { lower } else { higher - 1 };
                while left < x && top < x - diagonal && same(x - 1, x - diagonal - 1) {
                    x -= 1;
                }
                back[at(diagonal)] = x;
                if !odd && ahead.has(diagonal) && x <= fore[at(diagonal)] {
                    return (x as usize, (x - diagonal) as usize);
                }
            }
            if edits >= MOST_EDITS {
                break;
            }
        }
        // The farthest place of a path from the front, within the two ranges and before their end.
        let place = |diagonal| {
            let x = fore[at(diagonal)].min(right).min(bottom + diagonal);
            (x, x - diagonal)
        };
        let places = ahead
            .each()
            .map(place)
            .filter(|place| *place != (right, bottom));
        let (x, y) = places.max_by_key(|(x, y)| x + y).unwrap_or((right, top));
        (x as usize, y as usize)
    }
}

/// The diagonals that the paths from one end have come to: every second one from the least to the
/// most.
struct Diagonals {
    least: isize,
    most: isize,
    /// No place within the ranges is on a diagonal below this one.
    lowest: isize,
    /// None is on one above.
    highest: isize,
}

impl Diagonals {
    fn new(first: isize, lowest: isize, highest: isize) -> Diagonals {
        Diagonals {
            least: first,
            most: first,
            lowest,
            highest,
        }
    }

    /// Goes one diagonal on at each side, or one back where there is none. `bound` marks a diagonal
    /// that no path has come to.
    fn widen(&mut self, mut bound: impl FnMut(isize)) {
        if self.least > self.lowest {
            self.least -= 1;
            bound(self.least - 1);
        } else {
            self.least += 1;
        }
        if self.most < self.highest {
            self.most += 1;
            bound(self.most + 1);
        } else {
            self.most -= 1;
        }
    }

    fn has(&self, diagonal: isize) -> bool {
        (self.least..=self.most).contains(&diagonal)
    }

    fn each(&self) -> impl Iterator<Item = isize> {
        (self.least..=self.most).step_by(2)
    }
}

#[cfg(test)]
mod tests {
    use super::*;
    use std::process::Command;
    use std::{env, fs, process};

    fn diff(old: &str, new: &str) -> String {
        String::from_utf8(unified(OsStr::new("a.rs"), old.as_bytes(), new.as_bytes())).unwrap()
    }

    /// So many numbered lines.
    fn numbers(lines: Range<usize>) -> String {
        lines.map(|line| format!("{line}\n")).collect()
    }

    #[test]
    fn the_form_is_that_of_diff() {
        assert_eq!(diff("a\n", "a\n"), "");
        assert_eq!(
            diff("a\n", "b\n"),
            "--- a.rs\n+++ a.rs\n@@ -1 +1 @@\n-a\n+b\n"
        );
        assert_eq!(
            diff("", "a\nb\n"),
            "--- a.rs\n+++ a.rs\n@@ -0,0 +1,2 @@\n+a\n+b\n"
        );
        assert_eq!(diff("a\n", ""), "--- a.rs\n+++ a.rs\n@@ -1 +0,0 @@\n-a\n");
        let no_end = "\\ No newline at end of file\n";
        assert_eq!(
            diff("a", "a\n"),
            format!("--- a.rs\n+++ a.rs\n@@ -1 +1 @@\n-a\n{no_end}+a\n")
        );
        assert_eq!(
            diff("b\na", "a"),
            format!("--- a.rs\n+++ a.rs\n@@ -1,2 +1 @@\n-b\n a\n{no_end}")
        );
    }

    #[test]
    fn changes_with_six_lines_between_are_one_hunk_and_with_seven_two() {
        let old = numbers(10..30);
        let six = old.replace("15\n", "").replace("22\n", "a\nb\n");
        let hunk = " 12\n 13\n 14\n-15\n 16\n 17\n 18\n 19\n 20\n 21\n-22\n+a\n+b\n 23\n 24\n 25\n";
        assert_eq!(
            diff(&old, &six),
            format!("--- a.rs\n+++ a.rs\n@@ -3,14 +3,14 @@\n{hunk}")
        );
        let seven = old.replace("15\n", "").replace("23\n", "a\nb\n");
        let first = "@@ -3,7 +3,6 @@\n 12\n 13\n 14\n-15\n 16\n 17\n 18\n";
        let second = "@@ -11,7 +10,8 @@\n 20\n 21\n 22\n-23\n+a\n+b\n 24\n 25\n 26\n";
        assert_eq!(
            diff(&old, &seven),
            format!("--- a.rs\n+++ a.rs\n{first}{second}")
        );
    }

    #[test]
    fn a_name_is_one_to_patch() {
        assert_eq!(shown(OsStr::new("src/a.rs")), b"src/a.rs");
        assert_eq!(shown(OsStr::new("a b.rs")), b"a b.rs\t");
        assert_eq!(shown(OsStr::new("a\"\\\n.rs")), b"\"a\\\"\\\\\\012.rs\"");
    }

    /// Draws numbers from a seed (Marsaglia, Xorshift RNGs, 2003).
    struct Draw(u64);

    impl Draw {
        fn below(&mut self, bound: usize) -> usize {
            self.0 ^= self.0 << 13;
            self.0 ^= self.0 >> 7;
            self.0 ^= self.0 << 17;
            (self.0 % bound as u64) as usize
        }

        /// A text of so many lines, of which so many kinds are drawn; its last line may have no
        /// end.
        fn text(&mut self, lines: usize, kinds: usize) -> String {
            let mut text: String = (0..lines)
                .map(|_| format!("{}\n", self.below(kinds)))
                .collect();
            if self.below(4) == 0 {
                text.pop();
            }
            text
        }

        /// A text with some lines removed, added and changed.
        fn edited(&mut self, text: &str, kinds: usize) -> String {
            let mut out = String::new();
            for line in text.split_inclusive('\n') {
                match self.below(8) {
                    0 => {}
                    1 => out += &format!("{line}{}\n", self.below(kinds)),
                    2 => out += &format!("{}\n", self.below(kinds)),
                    _ => out += line,
                }
            }
            out
        }

        /// Two texts, of which every second pair has little in common.
        fn pair(&mut self, most: usize) -> (String, String) {
            let (lines, kinds) = (self.below(most), 1 + self.below(12));
            let old = self.text(lines, kinds);
            let lines = self.below(most);
            let new = if self.below(2) == 0 {
                self.edited(&old, kinds)
            } else {
                self.text(lines, kinds)
            };
            (old, new)
        }
    }

    /// What a diff makes of a text, by its lines alone.
    fn applied(old: &str, diff: &str) -> String {
        let old: Vec<&str> = old.split_inclusive('\n').collect();
        let (mut out, mut at) = (String::new(), 0);
        let mut rest = diff.split_inclusive('\n').skip(2).peekable();
        while let Some(line) = rest.next() {
            let no_end = rest.next_if(|next| next.starts_with('\\')).is_some();
            let (mark, text) = line.split_at(1);
            let text = if no_end {
                text.trim_end_matches('\n')
            } else {
                text
            };
            match mark {
                "@" => {
                    let place = line
                        .split(['-', ' ', ','])
                        .nth(2)
                        .unwrap()
                        .parse::<usize>()
                        .unwrap();
                    let first = if line.contains(",0 +") {
                        place
                    } else {
                        place - 1
                    };
                    out.extend(old[at..first].iter().copied());
                    at = first;
                }
                "+" => out += text,
                _ => {
                    assert_eq!(old[at], text);
                    at += 1;
                    if mark == " " {
                        out += text;
                    }
                }
            }
        }
        out.extend(old[at..].iter().copied());
        out
    }

    /// How many lines two texts have in common at most, in order, by the table of all their
    /// beginnings.
    fn most_in_common(old: &str, new: &str) -> usize {
        let (old, new) = (lines(old.as_bytes()), lines(new.as_bytes()));
        let mut row = vec![0; new.len() + 1];
        for line in old {
            let before = row.clone();
            for (at, other) in new.iter().enumerate() {
                row[at + 1] = if line == *other {
                    before[at] + 1
                } else {
                    before[at + 1].max(row[at])
                };
            }
        }
        row[new.len()]
    }

    #[test]
    fn a_diff_makes_the_new_text_with_the_fewest_lines() {
        let mut draw = Draw(1);
        for _ in 0..2000 {
            let (old, new) = draw.pair(40);
            let diff = diff(&old, &new);
            assert_eq!(
                if diff.is_empty() {
                    old.clone()
                } else {
                    applied(&old, &diff)
                },
                new,
                "{old:?}"
            );
            let changed = diff
                .lines()
                .skip(2)
                .filter(|line| line.starts_with(['-', '+']))
                .count();
            let all = lines(old.as_bytes()).len() + lines(new.as_bytes()).len();
            assert_eq!(
                changed,
                all - 2 * most_in_common(&old, &new),
                "{old:?} {new:?}"
            );
        }
    }

    #[test]
    fn texts_with_more_edits_than_are_searched_have_a_diff() {
        let mut draw = Draw(1);
        let (old, new) = (draw.text(4000, 100), draw.text(4000, 100));
        assert_eq!(applied(&old, &diff(&old, &new)), new);
        let (old, new) = (draw.text(20, 5), draw.text(10000, 5));
        assert_eq!(applied(&old, &diff(&old, &new)), new);
    }

    /// A folder of the test's own, which is removed with what is in it.
    struct Folder(std::path::PathBuf);

    impl Drop for Folder {
        fn drop(&mut self) {
            let _ = fs::remove_dir_all(&self.0);
        }
    }

    #[test]
    #[ignore = "needs the programs diff and patch"]
    fn patch_makes_the_new_text_and_diff_has_no_fewer_lines() {
        let folder = Folder(env::temp_dir().join(format!("froesaffron-diff-{}", process::id())));
        fs::create_dir(&folder.0).unwrap();
        let place = |name| folder.0.join(name);
        let mut draw = Draw(2);
        for _ in 0..500 {
            let (old, new) = draw.pair(60);
            fs::write(place("a.rs"), &old).unwrap();
            fs::write(place("new"), &new).unwrap();
            let ours = diff(&old, &new);
            let theirs = Command::new("diff")
                .args(["-u", "-d", "a.rs", "new"])
                .current_dir(&folder.0)
                .output()
                .unwrap();
            let changed = |diff: &str| {
                diff.lines()
                    .skip(2)
                    .filter(|line| line.starts_with(['-', '+']))
                    .count()
            };
            assert_eq!(
                changed(&ours),
                changed(&String::from_utf8(theirs.stdout).unwrap())
            );
            fs::write(place("diff"), &ours).unwrap();
            let run = Command::new("patch")
                .args(["-s", "-p0", "-i", "diff"])
                .current_dir(&folder.0)
                .status()
                .unwrap();
            assert!(run.success() || ours.is_empty());
            // `patch` removes a file that becomes empty.
            assert_eq!(fs::read_to_string(place("a.rs")).unwrap_or_default(), new);
        }
    }
}
