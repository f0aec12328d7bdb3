use std::thread;

fn first<'a>(a: &'a str, b: &str) -> &'a str {
    b
}

fn spawn() {
    let list = vec![1];
    thread::spawn(|| println!("{:?}", list));
}

fn closure() -> impl Fn() -> usize {
    let text = String::from("x");
    || text.len()
}

fn main() {
    let x;
    {
        let y = 5;
        x = &y;
    }
    println!("{}", x);
    let mut data = vec![1];
    let first = &data[0];
    data.push(2);
    println!("{first}");
    let unused_mut = 1;
    loop {
        break;
        println!("never");
    }
}
