//! The renderer, with measures computed once, against one that computes each anew from the nested document.

use oracle::doc::*;
use oracle::render::text;
use oracle::rng::Rng;

enum Doc {
    Text(String),
    Break(Break),
    Group(bool, i8, Vec<Doc>),
}

fn flat(d: &[Doc]) -> i64 {
    d.iter()
        .map(|x| match x {
            Doc::Text(s) => s.len() as i64,
            Doc::Break(b) => b.width(),
            Doc::Group(_, _, l) => flat(l),
        })
        .sum()
}

fn ahead(rest: &[Doc], follow: i64) -> i64 {
    match rest.iter().position(|x| matches!(x, Doc::Break(_))) {
        Some(i) => flat(&rest[..i]),
        None => flat(rest) + follow,
    }
}

struct State {
    out: String,
    pending: u64,
    space: i64,
}

impl State {
    fn put(&mut self, s: &str) {
        if s.is_empty() {
            return;
        }
        for _ in 0..self.pending {
            self.out.push(' ');
        }
        self.pending = 0;
        self.out.push_str(s);
        self.space -= s.len() as i64;
    }
}

fn render(d: &[Doc], broken: bool, consistent: bool, indent: i64, st: &mut State, follow: i64) {
    for (i, x) in d.iter().enumerate() {
        let rest = &d[i + 1..];
        match x {
            Doc::Text(s) => st.put(s),
            Doc::Group(c, o, l) => {
                let b = broken && flat(l) + ahead(rest, follow) > st.space;
                let ind = if b { (indent + *o as i64).clamp(0, 240) } else { indent };
                render(l, b, *c, ind, st, ahead(rest, follow));
            }
            Doc::Break(b) => {
                let nl = !b.never && broken && (consistent || b.width() + ahead(rest, follow) > st.space);
                if nl {
                    st.put(b.before.text());
                    st.out.push('\n');
                    let k = (indent + b.offset as i64).max(0);
                    st.pending = k as u64;
                    st.space = (89 - k).max(60);
                    st.put(b.after.text());
                } else {
                    st.pending = (st.pending + b.blank as u64).min(1_000_000);
                    st.space -= b.blank as i64;
                    st.put(b.instead.text());
                }
            }
        }
    }
}

fn make(r: &mut Rng, fuel: &mut i32) -> Vec<Doc> {
    let n = r.below(7);
    let mut v = Vec::new();
    for _ in 0..n {
        *fuel -= 1;
        v.push(match r.below(5) {
            0 if *fuel > 0 => Doc::Group(r.chance(1, 2), [-4, 0, 4, 4, 100][r.below(5) as usize], make(r, fuel)),
            1 if *fuel > 0 => Doc::Group(r.chance(1, 2), 4, make(r, fuel)),
            2 | 3 => {
                let m = |r: &mut Rng| {
                    if r.chance(1, 6) {
                        *r.pick(&[Mark::Comma, Mark::OpenBrace, Mark::CloseBrace])
                    } else {
                        Mark::Absent
                    }
                };
                let (before, after, instead) = (m(r), m(r), m(r));
                Doc::Break(Break {
                    offset: [-4, 0, 4][r.below(3) as usize],
                    blank: [0, 1, 1, 7, 65535][r.below(5) as usize].min(if r.chance(1, 3) { 65535 } else { 9 }),
                    before,
                    after,
                    instead,
                    never: r.chance(1, 8),
                })
            }
            _ => Doc::Text("x".repeat(1 + r.below(40) as usize)),
        });
    }
    v
}

fn flatten<'t>(d: &'t [Doc], out: &mut Vec<Tok<'t>>) {
    for x in d {
        match x {
            Doc::Text(s) => out.push(Tok::Text(s)),
            Doc::Break(b) => out.push(Tok::Break(*b)),
            Doc::Group(c, o, l) => {
                out.push(Tok::Begin { consistent: *c, offset: *o });
                flatten(l, out);
                out.push(Tok::End);
            }
        }
    }
}

#[test]
fn measures_computed_once_give_the_same() {
    let mut r = Rng(5);
    for _ in 0..30_000 {
        let mut fuel = 60;
        let d = make(&mut r, &mut fuel);
        let mut st = State { out: String::new(), pending: 0, space: 89 };
        render(&d, true, false, 0, &mut st, 0);
        let mut s = Vec::new();
        flatten(&d, &mut s);
        assert_eq!(text(&s), st.out);
    }
}
