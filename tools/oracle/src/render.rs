//! Oppen's algorithm ("Prettyprinting", TOPLAS 2(4), 1980), with measures computed once, from the back; and texts broken anywhere.

use crate::doc::*;
use crate::rng::Rng;

/// For each group and break the width of it with all that follows up to the next break around it; 0 for every other token.
pub fn measures(s: &[Tok<'_>]) -> Vec<i64> {
    let mut m = vec![0i64; s.len()];
    // ahead: the width up to the next break of what stands after, at the current level; flat: the width of the level so far.
    let (mut ahead, mut flat) = (0i64, 0i64);
    let mut outer: Vec<(i64, i64)> = Vec::new();
    for (i, t) in s.iter().enumerate().rev() {
        match t {
            Tok::Text(x) => {
                let w = x.len() as i64;
                ahead += w;
                flat += w;
            }
            Tok::Break(b) => {
                let w = b.width();
                m[i] = w + ahead;
                ahead = 0;
                flat += w;
            }
            Tok::End => {
                outer.push((ahead, flat));
                flat = 0;
            }
            Tok::Begin { .. } => {
                let (a, f) = outer.pop().expect("a whole stream");
                m[i] = flat + a;
                ahead = a + flat;
                flat += f;
            }
        }
    }
    m
}

/// What decides whether a group is broken, and whether a break is a newline.
pub enum Choice<'r> {
    /// The columns of a line, and the least space that a line has behind its indent.
    Margin(i64, i64),
    /// The chances in 256 that a group is broken, and that a break is a newline.
    Random(&'r mut Rng, u64, u64),
}

#[derive(Clone, Copy)]
struct Frame {
    broken: bool,
    consistent: bool,
    indent: i64,
}

pub fn render(s: &[Tok<'_>], mut choice: Choice<'_>) -> String {
    let m = measures(s);
    let hard = if let Choice::Random(..) = choice { holds_hard(s) } else { Vec::new() };
    let mut out = String::new();
    let mut pending = 0u64;
    let mut space = match choice {
        Choice::Margin(margin, _) => margin,
        _ => 0,
    };
    let mut frames = vec![Frame { broken: true, consistent: false, indent: 0 }];
    fn put(out: &mut String, pending: &mut u64, space: &mut i64, s: &str) {
        if s.is_empty() {
            return;
        }
        for _ in 0..*pending {
            out.push(' ');
        }
        *pending = 0;
        out.push_str(s);
        *space -= s.len() as i64;
    }
    for (i, t) in s.iter().enumerate() {
        let f = frames[frames.len() - 1];
        match t {
            Tok::Text(x) => put(&mut out, &mut pending, &mut space, x),
            Tok::End => {
                frames.pop();
            }
            Tok::Begin { consistent, offset } => {
                let broken = f.broken
                    && match &mut choice {
                        Choice::Margin(..) => m[i] > space,
                        Choice::Random(r, g, _) => hard[i] || r.below(256) < *g,
                    };
                let indent = if broken { (f.indent + *offset as i64).clamp(0, 240) } else { f.indent };
                frames.push(Frame { broken, consistent: *consistent, indent });
            }
            Tok::Break(b) => {
                let newline = !b.never
                    && f.broken
                    && (f.consistent
                        || match &mut choice {
                            Choice::Margin(..) => m[i] > space,
                            Choice::Random(r, _, n) => b.hard() || r.below(256) < *n,
                        });
                if newline {
                    put(&mut out, &mut pending, &mut space, b.before.text());
                    out.push('\n');
                    let k = (f.indent + b.offset as i64).max(0);
                    pending = k as u64;
                    if let Choice::Margin(margin, least) = choice {
                        space = (margin - k).max(least);
                    }
                    put(&mut out, &mut pending, &mut space, b.after.text());
                } else {
                    pending = (pending + b.blank as u64).min(1_000_000);
                    space -= b.blank as i64;
                    put(&mut out, &mut pending, &mut space, b.instead.text());
                }
            }
        }
    }
    out
}

/// The text of a stream at 89 columns, of which a line has at least 60 behind its indent.
pub fn text(s: &[Tok<'_>]) -> String {
    render(s, Choice::Margin(89, 60))
}

/// For each Begin whether its group holds a hard break.
fn holds_hard(s: &[Tok<'_>]) -> Vec<bool> {
    let mut h = vec![false; s.len()];
    let mut stack: Vec<usize> = Vec::new();
    for (i, t) in s.iter().enumerate() {
        match t {
            Tok::Begin { .. } => stack.push(i),
            Tok::End => {
                let b = stack.pop().unwrap();
                if h[b] {
                    if let Some(&o) = stack.last() {
                        h[o] = true;
                    }
                }
            }
            Tok::Break(b) if b.hard() => {
                if let Some(&o) = stack.last() {
                    h[o] = true;
                }
            }
            _ => {}
        }
    }
    h
}
