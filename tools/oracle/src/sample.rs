//! The items of `--sample`.
pub fn sample(seed: u64, items: u32) -> String {
    let mut x = seed;
    let mut draw = |n: u64| {
        x = x.wrapping_mul(6364136223846793005).wrapping_add(1442695040888963407);
        (x >> 33) % n
    };
    let mut s = String::new();
    for i in 0..items {
        match draw(4) {
            0 => s.push_str(&format!("struct S{i}{{a:u8,b:Vec<u8>}}\n")),
            1 => {
                let v = draw(1000);
                s.push_str(&format!("use m{v}::{{a,b,c}};\n"))
            }
            2 => {
                let v = draw(1000);
                s.push_str(&format!("fn f{i}(x:u8)->u8{{match x{{0=>{{g(x)}}_=>x+{v},}}}}\n"))
            }
            _ => {
                let v = draw(100);
                s.push_str(&format!("const C{i}:[u8;3]=[1,2,{v}];\n"))
            }
        }
    }
    s
}
