mod util;

#[derive(Debug, Clone)]
struct Config {
    name: String,
    port: Opaque,
}

struct Opaque;

macro_rules! add_all {
    ($($e:expr),*) => {
        0 $(+ $e)*
    };
}

trait Shape {
    fn area(&self) -> f64;
    fn name(&self) -> &str;
}

struct Circle(f64);

impl Shape for Circle {
    fn area(&self) -> f64 {
        self.0
    }
}

fn longest(a: &str, b: &str) -> &str {
    if a.len() > b.len() { a } else { b }
}

fn main() {
    let count: u32 = "three";
    let total = add_all!(1, "two", 3);
    println!("{} {}", total, cuont);
    let unused = 3;
    let mut never = 4;
    println!("{never}");
    let s = String::from("a");
    let t = s;
    println!("{s} {t}");
    util::helper(1, 2);
    match Some(3) {
        Some(x) => println!("{x}"),
    }
    let v = vec![1, 2, 3];
    let r = &v[0];
    v.push(4);
    println!("{r}");
    HashMap::<u8, u8>::new();
    util::hiden();
}
