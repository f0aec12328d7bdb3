pub fn helper(only: &str) -> usize {
    only.len()
}

fn hidden() {}

pub fn returns() -> Result<u8, String> {
    let n: u8 = "7".parse()?;
    n
}
